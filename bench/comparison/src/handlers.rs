//! The operations of the sample API.
use crate::request::{Request, Variable};
use crate::{Answer, Response};
use serde::{de::DeserializeOwned, Deserialize, Serialize};
use std::collections::BTreeMap;
use std::str::FromStr;

const BODY_LIMIT: usize = 1024;
const RAW_LIMIT: usize = 8;
const FRAME_BUDGET: usize = 1000;

/// Points by their labels.
pub struct Store(BTreeMap<String, Point>);

#[derive(Clone, Deserialize, Serialize)]
struct Point {
    label: String,
    n: i32,
    on: bool,
}

#[derive(Deserialize)]
struct Folder {
    #[allow(dead_code)]
    name: String,
    children: Vec<Folder>,
}

#[derive(Serialize)]
struct Probe<'a> {
    label: &'a str,
    n: Option<u32>,
    i: Option<i32>,
    a: Option<u8>,
}

#[derive(Serialize)]
struct ErrorBody<'a> {
    request_id: &'a str,
    message: &'a str,
}

/// Why a request came to no reply of its handler.
enum Failure {
    Refused(String),
    TooLarge(usize),
    Budget,
    WrongVariables,
}

type Reply = Result<(u16, Vec<u8>), Failure>;

impl Store {
    /// The first store: four points.
    pub fn with_points() -> Store {
        let point = |n| Point { label: format!("p{n}"), n, on: true };
        Store((1..5).map(point).map(|point| (point.label.clone(), point)).collect())
    }
}

impl Answer {
    /// An outcome alone.
    pub fn without_response(outcome: &'static str) -> Answer {
        Answer { outcome, response: None }
    }

    fn of_error(outcome: &'static str, request: &Request, message: &str) -> Answer {
        let error = ErrorBody { request_id: &request.request_id, message };
        let headers = vec![json_header(), ("x-request-id", request.request_id.clone())];
        let body = serde_json::to_vec_pretty(&error).unwrap_or_default();
        Answer { outcome, response: Some(Response { status: 400, headers, body }) }
    }
}

/// Answers a request at version 1.0.0.
pub fn exchange(store: &mut Store, request: Request) -> Answer {
    if !request.request_id.bytes().all(|byte| byte == b'\t' || (byte >= 32 && byte != 127)) {
        return Answer::without_response("bad-request-id");
    }
    let reply = match (request.method.as_str(), request.template.as_str()) {
        ("POST", "/points") => point_create(store, &request),
        ("GET", "/points/{label}") => point_probe(&request),
        ("PUT", "/raw") => raw_size(&request),
        ("POST", "/folders") => folder_count(&request),
        ("GET", "/inner") => has_variables(&request, &[]).map(|()| (200, b"true".to_vec())),
        _ => return Answer::without_response("no-such-operation"),
    };
    match reply {
        Ok((status, body)) => {
            Answer { outcome: "handled", response: Some(Response { status, headers: vec![json_header()], body }) }
        }
        Err(Failure::Refused(message)) => Answer::of_error("refused", &request, &message),
        Err(Failure::TooLarge(limit)) => {
            let message = format!("request body exceeded maximum size of {limit} bytes");
            Answer::of_error("body-too-large", &request, &message)
        }
        Err(Failure::Budget) => Answer::without_response("frame-budget"),
        Err(Failure::WrongVariables) => Answer::without_response("wrong-variables"),
    }
}

fn point_create(store: &mut Store, request: &Request) -> Reply {
    let point: Point = typed_body(request)?;
    if point.label.is_empty() {
        return Err(Failure::Refused("unable to parse JSON body: label: invalid length".to_owned()));
    }
    store.0.insert(point.label.clone(), point.clone());
    Ok((201, json(&point)))
}

fn point_probe(request: &Request) -> Reply {
    has_variables(request, &["label"])?;
    let Some(Variable::Text(label)) = request.variables.get("label") else { return Err(Failure::WrongVariables) };
    let query = request.query();
    let (n, i) = (number(&query, "n")?, number(&query, "i")?);
    let a = request.header("x-a").map(|text| parsed(text, "header")).transpose()?;
    Ok((200, json(&Probe { label, n, i, a })))
}

fn raw_size(request: &Request) -> Reply {
    has_variables(request, &[])?;
    Ok((200, json(&whole_body(request, RAW_LIMIT)?.len())))
}

fn folder_count(request: &Request) -> Reply {
    fn count(folder: &Folder) -> u32 {
        folder.children.iter().map(count).fold(1, u32::saturating_add)
    }
    Ok((200, json(&count(&typed_body(request)?))))
}

fn has_variables(request: &Request, names: &[&str]) -> Result<(), Failure> {
    if request.variables.keys().eq(names) { Ok(()) } else { Err(Failure::WrongVariables) }
}

/// The frames one after the other.
fn whole_body(request: &Request, limit: usize) -> Result<Vec<u8>, Failure> {
    let mut body = Vec::new();
    for (index, frame) in request.frames.iter().enumerate() {
        if index == FRAME_BUDGET {
            return Err(Failure::Budget);
        }
        if body.len() + frame.len() > limit {
            return Err(Failure::TooLarge(limit));
        }
        body.extend_from_slice(frame);
    }
    Ok(body)
}

/// The body as JSON of a type, of which the media type is looked at first.
fn typed_body<T: DeserializeOwned>(request: &Request) -> Result<T, Failure> {
    has_variables(request, &[])?;
    let kind = request.header("content-type").map_or("application/json", |kind| kind.split(';').next().unwrap_or(kind));
    if !kind.trim().eq_ignore_ascii_case("application/json") {
        return Err(Failure::Refused(format!("unsupported content-type: {kind}")));
    }
    let refused = |error| Failure::Refused(format!("unable to parse JSON body: {error}"));
    serde_json::from_slice(&whole_body(request, BODY_LIMIT)?).map_err(refused)
}

/// The number under a name, which may stand there once.
fn number<T: FromStr>(pairs: &[(String, String)], name: &str) -> Result<Option<T>, Failure> {
    let mut texts = pairs.iter().filter(|pair| pair.0 == name).map(|pair| pair.1.as_str());
    match (texts.next(), texts.next()) {
        (Some(_), Some(_)) => Err(Failure::Refused(format!("unable to parse query string: duplicate field `{name}`"))),
        (Some(text), None) => parsed(text, "query string").map(Some),
        (None, _) => Ok(None),
    }
}

fn parsed<T: FromStr>(text: &str, place: &str) -> Result<T, Failure> {
    text.parse().map_err(|_| Failure::Refused(format!("unable to parse {place}: unable to parse '{text}'")))
}

fn json<T: Serialize>(value: &T) -> Vec<u8> {
    serde_json::to_vec(value).unwrap_or_default()
}

fn json_header() -> (&'static str, String) {
    ("content-type", "application/json".to_owned())
}
