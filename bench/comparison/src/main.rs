//! The sessions of the sample API, at version 1.0.0, as they are in Rust with serde_json and structs: what
//! `bench/allocations_a_line.sh` compares with. It writes no document.
mod handlers;
mod request;

use handlers::{exchange, Store};
use request::{Request, RequestLine};
use serde::Serialize;
use std::io::{self, BufRead, Write};

/// What a request came to: its outcome, and the response where there is one.
pub struct Answer {
    outcome: &'static str,
    response: Option<Response>,
}

pub struct Response {
    status: u16,
    headers: Vec<(&'static str, String)>,
    body: Vec<u8>,
}

#[derive(Serialize)]
struct ReplyLine<'a> {
    outcome: &'a str,
    #[serde(flatten)]
    response: Option<ShownResponse<'a>>,
}

#[derive(Serialize)]
struct ShownResponse<'a> {
    status: u16,
    headers: &'a [(&'static str, String)],
    body: &'a str,
}

fn answer(store: &mut Store, line: &[u8]) -> Answer {
    let request = serde_json::from_slice::<RequestLine>(line).ok().and_then(Request::new);
    match request {
        Some(request) => exchange(store, request),
        None => Answer::without_response("bad-line"),
    }
}

fn write_reply(answer: &Answer, out: &mut Vec<u8>) -> io::Result<()> {
    let response = match &answer.response {
        Some(response) => Some(ShownResponse {
            status: response.status,
            headers: &response.headers,
            body: std::str::from_utf8(&response.body).map_err(io::Error::other)?,
        }),
        None => None,
    };
    serde_json::to_writer(&mut *out, &ReplyLine { outcome: answer.outcome, response })?;
    out.push(b'\n');
    Ok(())
}

fn main() -> io::Result<()> {
    let (mut source, mut sink) = (io::stdin().lock(), io::stdout().lock());
    let mut store = Store::with_points();
    let (mut line, mut reply) = (Vec::new(), Vec::new());
    while source.read_until(b'\n', &mut line)? > 0 {
        write_reply(&answer(&mut store, line.trim_ascii_end()), &mut reply)?;
        sink.write_all(&reply)?;
        line.clear();
        reply.clear();
    }
    sink.flush()
}
