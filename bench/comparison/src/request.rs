//! Request lines, and the requests that they ask for.
use serde::Deserialize;
use std::collections::BTreeMap;

/// A request line with all its members.
#[derive(Deserialize)]
pub struct RequestLine {
    method: String,
    template: String,
    request_id: String,
    #[serde(default = "root")]
    uri: String,
    #[serde(default)]
    variables: BTreeMap<String, Variable>,
    #[serde(default)]
    headers: Vec<(String, String)>,
    #[serde(default)]
    frames: Vec<Frame>,
}

/// What a variable stands for.
#[derive(Deserialize)]
#[serde(untagged)]
pub enum Variable {
    Text(String),
    Components(#[allow(dead_code)] Vec<String>),
}

#[derive(Deserialize)]
#[serde(untagged)]
enum Frame {
    Text(String),
    Digits { hex: String },
}

/// A request whose method, target, header lines and frames are such.
pub struct Request {
    pub method: String,
    pub template: String,
    pub request_id: String,
    pub uri: String,
    pub variables: BTreeMap<String, Variable>,
    pub headers: Vec<(String, String)>,
    pub frames: Vec<Vec<u8>>,
}

fn root() -> String {
    "/".to_owned()
}

impl Request {
    /// The request of a line. None where a part of it is refused.
    pub fn new(line: RequestLine) -> Option<Request> {
        let is_head = is_token(&line.method) && is_target(&line.uri);
        let headers = line.headers.into_iter().map(header_line).collect::<Option<_>>()?;
        let frames = line.frames.into_iter().map(bytes_of).collect::<Option<_>>()?;
        is_head.then_some(Request {
            method: line.method,
            template: line.template,
            request_id: line.request_id,
            uri: line.uri,
            variables: line.variables,
            headers,
            frames,
        })
    }

    /// The last value of a header field.
    pub fn header(&self, name: &str) -> Option<&str> {
        self.headers.iter().rfind(|line| line.0 == name).map(|line| line.1.as_str())
    }

    /// The decoded pairs of the query.
    pub fn query(&self) -> Vec<(String, String)> {
        let query = self.uri.split_once('?').map_or("", |(_, query)| query);
        let pairs = query.split('&').filter(|pair| !pair.is_empty());
        pairs.map(|pair| pair.split_once('=').unwrap_or((pair, ""))).map(|(k, v)| (decoded(k), decoded(v))).collect()
    }
}

/// RFC 9110, section 5.6.2.
fn is_token(text: &str) -> bool {
    let is_part = |byte: u8| byte.is_ascii_alphanumeric() || b"!#$%&'*+-.^_`|~".contains(&byte);
    !text.is_empty() && text.bytes().all(is_part)
}

/// A path and perhaps a query, of the characters of RFC 3986.
fn is_target(text: &str) -> bool {
    let is_part = |byte: u8| byte.is_ascii_alphanumeric() || b"/?:@!$&'()*+,;=-._~%".contains(&byte);
    text.starts_with('/') && text.bytes().all(is_part)
}

/// A header line, with its name in lower case.
fn header_line((mut name, value): (String, String)) -> Option<(String, String)> {
    let is_value = value.bytes().all(|byte| byte == b'\t' || (byte >= 32 && byte != 127));
    name.make_ascii_lowercase();
    (is_token(&name) && is_value).then_some((name, value))
}

fn bytes_of(frame: Frame) -> Option<Vec<u8>> {
    match frame {
        Frame::Text(text) => Some(text.into_bytes()),
        Frame::Digits { hex } => digits(&hex),
    }
}

fn digits(hex: &str) -> Option<Vec<u8>> {
    let digit = |byte: u8| char::from(byte).to_digit(16).map(|value| value as u8);
    let byte = |pair: &[u8]| Some(digit(pair[0])? * 16 + digit(*pair.get(1)?)?);
    hex.as_bytes().chunks(2).map(byte).collect()
}

/// A text of a query: a plus is a space, and percent and two digits are a byte.
fn decoded(text: &str) -> String {
    let mut bytes = Vec::with_capacity(text.len());
    let mut rest = text.as_bytes();
    while let [first, after @ ..] = rest {
        let pair = after.get(..2).filter(|_| *first == b'%');
        let escaped = pair.and_then(|pair| digits(std::str::from_utf8(pair).ok()?));
        bytes.push(escaped.as_ref().map_or(if *first == b'+' { b' ' } else { *first }, |byte| byte[0]));
        rest = if escaped.is_some() { &after[2..] } else { after };
    }
    String::from_utf8_lossy(&bytes).into_owned()
}
