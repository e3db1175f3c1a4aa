//! Requests and answers of HTTP/1.1, as few as a page needs: one request for each connection, read strictly. What is not as
//! it should be is answered by an error, and nothing is made of it.

use std::io::{self, Read, Write};

/// What a browser sends before a body is far shorter.
const MOST_HEAD: usize = 16 << 10;
const MOST_HEADERS: usize = 64;
/// The longest text that a page may send: a graph of 256 instructions with all its inputs has a tenth of it.
pub const MOST_BODY: usize = 1 << 20;
const END: &[u8] = b"\r\n\r\n";

pub struct Request {
    pub method: String,
    pub target: String,
    headers: Vec<(String, String)>,
    pub body: Vec<u8>,
}

impl Request {
    /// The value of a header, if there is one. Two of a name are refused: which one counts, each reader may see otherwise.
    pub fn header(&self, name: &str) -> Result<Option<&str>, Answer> {
        let mut found = self.headers.iter().filter(|(known, _)| known == name);
        match (found.next(), found.next()) {
            (_, Some(_)) => Err(Answer::error(400, "a header is there twice")),
            (first, None) => Ok(first.map(|(_, value)| value.as_str())),
        }
    }
}

/// Why a request was not read: its connection is of no use, or it is answered by an error.
#[derive(Debug)]
pub enum Fault {
    Lost,
    Wrong(Answer),
}

impl From<Answer> for Fault {
    fn from(answer: Answer) -> Fault {
        Fault::Wrong(answer)
    }
}

impl From<io::Error> for Fault {
    fn from(_: io::Error) -> Fault {
        Fault::Lost
    }
}

/// Reads a request.
pub fn read(stream: &mut impl Read) -> Result<Request, Fault> {
    let (head, start) = read_head(stream)?;
    let mut request = parsed(&head)?;
    let length = length(&request)?;
    if start.len() > length {
        return Err(Answer::error(400, "more than one request").into());
    }
    request.body = start;
    let missing = length - request.body.len();
    let read = stream.take(missing as u64).read_to_end(&mut request.body)?;
    match read == missing {
        true => Ok(request),
        false => Err(Fault::Lost),
    }
}

/// The head of a request without its end, and what has come of the body.
fn read_head(stream: &mut impl Read) -> Result<(Vec<u8>, Vec<u8>), Fault> {
    let (mut bytes, mut piece) = (Vec::new(), [0; 4096]);
    loop {
        let end = bytes.windows(END.len()).position(|part| part == END);
        if let Some(end) = end.filter(|end| *end <= MOST_HEAD) {
            let body = bytes.split_off(end + END.len());
            bytes.truncate(end);
            return Ok((bytes, body));
        }
        if bytes.len() > MOST_HEAD {
            return Err(Answer::error(431, "the head is too long").into());
        }
        match stream.read(&mut piece)? {
            0 => return Err(Fault::Lost),
            count => bytes.extend(&piece[..count]),
        }
    }
}

/// A request without its body.
fn parsed(head: &[u8]) -> Result<Request, Answer> {
    let wrong = || Answer::error(400, "this is no request");
    let is_plain = |byte: &u8| matches!(byte, b'\t' | b'\r' | b'\n' | b' '..=b'~');
    let text = std::str::from_utf8(head).map_err(|_| wrong())?;
    if !head.iter().all(is_plain) {
        return Err(wrong());
    }
    let mut lines = text.split("\r\n");
    let words: Vec<&str> = lines.next().unwrap_or_default().split(' ').collect();
    let [method, target, version] = words[..] else {
        return Err(wrong());
    };
    let is_method = !method.is_empty() && method.bytes().all(|byte| byte.is_ascii_uppercase());
    if !is_method || !target.starts_with('/') || version != "HTTP/1.1" {
        return Err(wrong());
    }
    let headers: Option<Vec<_>> = lines.map(header).take(MOST_HEADERS + 1).collect();
    let headers = headers.filter(|headers| headers.len() <= MOST_HEADERS);
    Ok(Request {
        method: method.to_string(),
        target: target.to_string(),
        headers: headers.ok_or_else(wrong)?,
        body: Vec::new(),
    })
}

/// A line of the head: its name in small letters, and its value. A line end within it is none of the protocol's.
fn header(line: &str) -> Option<(String, String)> {
    let (name, value) = line.split_once(':')?;
    let is_letter = |byte: u8| byte.is_ascii_alphanumeric() || b"!#$%&'*+-.^_`|~".contains(&byte);
    let is_name = !name.is_empty() && name.bytes().all(is_letter);
    let is_one_line = !value.contains(['\r', '\n']);
    let value = value.trim_matches([' ', '\t']);
    (is_name && is_one_line).then(|| (name.to_ascii_lowercase(), value.to_string()))
}

/// How long the body is.
fn length(request: &Request) -> Result<usize, Answer> {
    for name in ["transfer-encoding", "expect", "upgrade"] {
        if request.header(name)?.is_some() {
            return Err(Answer::error(501, "this is not taken here"));
        }
    }
    let Some(digits) = request.header("content-length")? else {
        return Ok(0);
    };
    let is_number = !digits.is_empty() && digits.bytes().all(|byte| byte.is_ascii_digit());
    let length = digits.parse().unwrap_or(usize::MAX);
    match is_number {
        false => Err(Answer::error(400, "no length of a body")),
        true if length > MOST_BODY => Err(Answer::error(413, "the text is too long")),
        true => Ok(length),
    }
}

/// What a request is answered.
#[derive(Debug)]
pub struct Answer {
    pub status: u16,
    kind: &'static str,
    body: Vec<u8>,
}

/// For every answer: no other page may hold it, frame it or be told of the address, and it may get nothing from elsewhere.
const HEADERS: &str = "Connection: close\r\n\
    Cache-Control: no-store\r\n\
    Content-Security-Policy: default-src 'none'; style-src 'self'; script-src 'self'; connect-src 'self'; \
    base-uri 'none'; form-action 'none'; frame-ancestors 'none'\r\n\
    Cross-Origin-Opener-Policy: same-origin\r\n\
    Cross-Origin-Resource-Policy: same-origin\r\n\
    Referrer-Policy: no-referrer\r\n\
    X-Content-Type-Options: nosniff\r\n\
    X-Frame-Options: DENY\r\n";

impl Answer {
    pub fn new(status: u16, kind: &'static str, body: impl Into<Vec<u8>>) -> Answer {
        Answer {
            status,
            kind,
            body: body.into(),
        }
    }

    pub fn json(status: u16, body: String) -> Answer {
        Answer::new(status, "application/json", body)
    }

    pub fn error(status: u16, words: &str) -> Answer {
        Answer::new(status, "text/plain", format!("{words}\n"))
    }

    pub fn write(&self, stream: &mut impl Write) -> io::Result<()> {
        let (status, kind, length) = (self.status, self.kind, self.body.len());
        let start = format!("HTTP/1.1 {status} {}\r\n", reason(status));
        let about = format!("Content-Type: {kind}; charset=utf-8\r\nContent-Length: {length}\r\n");
        stream.write_all(format!("{start}{about}{HEADERS}\r\n").as_bytes())?;
        stream.write_all(&self.body)?;
        stream.flush()
    }
}

fn reason(status: u16) -> &'static str {
    match status {
        200 => "OK",
        403 => "Forbidden",
        404 => "Not Found",
        405 => "Method Not Allowed",
        409 => "Conflict",
        413 => "Content Too Large",
        415 => "Unsupported Media Type",
        431 => "Request Header Fields Too Large",
        500 => "Internal Server Error",
        501 => "Not Implemented",
        503 => "Service Unavailable",
        _ => "Bad Request",
    }
}

#[cfg(test)]
mod tests {
    use super::*;

    fn status(bytes: &[u8]) -> u16 {
        match read(&mut &bytes[..]) {
            Ok(_) => 200,
            Err(Fault::Wrong(answer)) => answer.status,
            Err(Fault::Lost) => 0,
        }
    }

    #[test]
    fn a_request() {
        let mut bytes =
            &b"POST /a/b HTTP/1.1\r\nHost: x:1\r\nX-A:  b c \r\nContent-Length: 3\r\n\r\nabc"[..];
        let request = read(&mut bytes).unwrap();
        assert_eq!(
            (request.method.as_str(), request.target.as_str()),
            ("POST", "/a/b")
        );
        assert_eq!(request.header("x-a").unwrap(), Some("b c"));
        assert_eq!(request.header("y").unwrap(), None);
        assert_eq!(request.body, b"abc");
    }

    const GET: &str = "GET / HTTP/1.1\r\n";

    #[test]
    fn what_is_no_request() {
        for (expected, bytes) in [
            (200, "GET / HTTP/1.1\r\n\r\n"),
            (0, ""),
            (0, GET),
            (400, "GET / HTTP/1.0\r\n\r\n"),
            (400, "GET  / HTTP/1.1\r\n\r\n"),
            (400, "GET /\r\n\r\n"),
            (400, "get / HTTP/1.1\r\n\r\n"),
            (400, "GET http://a/ HTTP/1.1\r\n\r\n"),
            (400, "GET / HTTP/1.1\r\n\r\nGET / HTTP/1.1\r\n\r\n"),
        ] {
            assert_eq!(status(bytes.as_bytes()), expected, "{bytes:?}");
        }
    }

    #[test]
    fn headers() {
        for line in [
            "A",
            "A : b",
            " A: b",
            ": b",
            "A: b\nC: d",
            "A: b\rC: d",
            "A: \u{e9}",
            "A: \0",
        ] {
            assert_eq!(
                status(format!("{GET}{line}\r\n\r\n").as_bytes()),
                400,
                "{line:?}"
            );
        }
        let many = |count| format!("{GET}{}\r\n", "A: b\r\n".repeat(count));
        assert_eq!(
            (status(many(64).as_bytes()), status(many(65).as_bytes())),
            (200, 400)
        );
        let long = |count| format!("{GET}A: {}\r\n\r\n", "x".repeat(count));
        assert_eq!(
            (
                status(long(9000).as_bytes()),
                status(long(MOST_HEAD).as_bytes())
            ),
            (200, 431)
        );
    }

    #[test]
    fn lengths() {
        for (expected, line) in [
            (200, "Content-Length: 3"),
            (0, "Content-Length: 4"),
            (400, "Content-Length: 2"),
            (400, "Content-Length: +3"),
            (400, "Content-Length:"),
            (400, "Content-Length: 3, 3"),
            (400, "Content-Length: 3\r\ncontent-length: 3"),
            (413, "Content-Length: 1048577"),
            (413, "Content-Length: 99999999999999999999999"),
            (501, "Transfer-Encoding: chunked"),
            (501, "Expect: 100-continue"),
        ] {
            assert_eq!(
                status(format!("{GET}{line}\r\n\r\nabc").as_bytes()),
                expected,
                "{line:?}"
            );
        }
    }

    /// However a request comes in pieces, it is read the same.
    #[test]
    fn in_pieces() {
        struct Pieces<'b>(&'b [u8]);
        impl Read for Pieces<'_> {
            fn read(&mut self, room: &mut [u8]) -> io::Result<usize> {
                let Some((first, rest)) = self.0.split_first() else {
                    return Ok(0);
                };
                (room[0], self.0) = (*first, rest);
                Ok(1)
            }
        }
        let bytes = b"POST / HTTP/1.1\r\nContent-Length: 2\r\n\r\nabGET";
        let request = read(&mut Pieces(bytes)).unwrap();
        assert_eq!(request.body, b"ab");
    }
}
