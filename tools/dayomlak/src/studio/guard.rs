//! Who is served: a page that this program has made itself, and nobody else. A request that another page, another user of
//! this computer or another name for it may have sent is answered by an error.

use std::fs::File;
use std::io::{self, Read};

use super::http::{Answer, Request};

/// What a page sends. No form and no page of another origin can send it unasked.
const TYPE: &str = "application/x-dayomlak";

/// What is asked for.
#[derive(Clone, Copy, Debug, PartialEq, Eq)]
pub enum Route {
    Page,
    Style,
    Script,
    File,
    Run,
    Picture,
    Save,
}

/// The routes by their names behind the token, and their methods.
const ROUTES: [(&str, &str, Route); 7] = [
    ("GET", "", Route::Page),
    ("GET", "page.css", Route::Style),
    ("GET", "page.js", Route::Script),
    ("POST", "file", Route::File),
    ("POST", "run", Route::Run),
    ("POST", "picture", Route::Picture),
    ("POST", "save", Route::Save),
];

pub struct Guard {
    /// The address and port that are listened at.
    host: String,
    /// What only those know who have read the address.
    token: String,
}

impl Guard {
    pub fn new(host: String) -> io::Result<Guard> {
        let mut bytes = [0; 16];
        File::open("/dev/urandom")?.read_exact(&mut bytes)?;
        let token = bytes.iter().map(|byte| format!("{byte:02x}")).collect();
        Ok(Guard { host, token })
    }

    /// Where the page is.
    pub fn address(&self) -> String {
        format!("http://{}/{}/", self.host, self.token)
    }

    /// The route of a request that may be served.
    pub fn admit(&self, request: &Request) -> Result<Route, Answer> {
        let forbidden = |words: &str| Answer::error(403, words);
        // A name that another server gives for this computer must lead nowhere.
        if request.header("host")? != Some(self.host.as_str()) {
            return Err(forbidden(
                "this is another host; take the address that was printed",
            ));
        }
        let is_post = request.method == "POST";
        let own = format!("http://{}", self.host);
        match request.header("origin")? {
            Some(origin) if origin == own => {}
            None if !is_post => {}
            _ => return Err(forbidden("this is another origin")),
        }
        let path = request.target.strip_prefix('/').unwrap_or_default();
        let (token, name) = path.split_once('/').unwrap_or((path, "/"));
        // The address of the page itself is typed, or followed from no page.
        match request.header("sec-fetch-site")? {
            None | Some("same-origin") => {}
            Some("none") if !is_post && name.is_empty() => {}
            _ => return Err(forbidden("this comes from another page")),
        }
        if !is_same(token, &self.token) {
            return Err(forbidden("this is not the address that was printed"));
        }
        self.route(request, name)
    }

    fn route(&self, request: &Request, name: &str) -> Result<Route, Answer> {
        let known = ROUTES.iter().find(|(_, known, _)| *known == name);
        let Some((method, _, route)) = known else {
            return Err(Answer::error(404, "there is no such page"));
        };
        let is_typed = request.header("content-type")? == Some(TYPE);
        let is_empty = request.body.is_empty();
        match *method {
            known if known != request.method => Err(Answer::error(405, "another method")),
            "POST" if !is_typed => Err(Answer::error(415, "another type")),
            "GET" if !is_empty => Err(Answer::error(400, "a body where none belongs")),
            _ => Ok(*route),
        }
    }
}

/// Whether two words are the same, in a time that does not tell how far they are.
fn is_same(word: &str, other: &str) -> bool {
    let both = word.bytes().zip(other.bytes());
    word.len() == other.len() && both.fold(0, |sum, (a, b)| sum | (a ^ b)) == 0
}

#[cfg(test)]
mod tests {
    use super::*;
    use crate::studio::http;

    /// The status of a request, 200 where it is served.
    fn status(line: &str, headers: &[&str]) -> u16 {
        let guard = Guard {
            host: "127.0.0.1:80".to_string(),
            token: "abc".to_string(),
        };
        let text = format!("{line} HTTP/1.1\r\n{}\r\n\r\n", headers.join("\r\n"));
        let request = http::read(&mut text.as_bytes()).unwrap();
        guard
            .admit(&request)
            .map_or_else(|answer| answer.status, |_| 200)
    }

    const HOST: &str = "Host: 127.0.0.1:80";
    const ORIGIN: &str = "Origin: http://127.0.0.1:80";
    const BODY: &str = "Content-Type: application/x-dayomlak";

    #[test]
    fn who_is_served() {
        assert_eq!(status("GET /abc/", &[HOST]), 200);
        assert_eq!(
            status("GET /abc/page.js", &[HOST, "Sec-Fetch-Site: same-origin"]),
            200
        );
        assert_eq!(status("GET /abc/", &[HOST, "Sec-Fetch-Site: none"]), 200);
        assert_eq!(status("POST /abc/run", &[HOST, ORIGIN, BODY]), 200);
    }

    #[test]
    fn other_hosts_and_origins() {
        for host in ["localhost:80", "127.0.0.1", "evil.example:80", ""] {
            assert_eq!(
                status("GET /abc/", &[&format!("Host: {host}")]),
                403,
                "{host}"
            );
        }
        assert_eq!(status("GET /abc/", &["X: y"]), 403);
        for origin in [
            "null",
            "http://127.0.0.1:81",
            "https://127.0.0.1:80",
            "http://evil.example",
        ] {
            let origin = format!("Origin: {origin}");
            assert_eq!(status("GET /abc/", &[HOST, &origin]), 403, "{origin}");
            let post = status("POST /abc/run", &[HOST, BODY, &origin]);
            assert_eq!(post, 403, "{origin}");
        }
        assert_eq!(status("POST /abc/run", &[HOST, BODY]), 403);
    }

    #[test]
    fn other_pages_and_tokens() {
        for site in ["cross-site", "same-site", "other"] {
            let site = format!("Sec-Fetch-Site: {site}");
            assert_eq!(status("GET /abc/", &[HOST, &site]), 403, "{site}");
        }
        let none = "Sec-Fetch-Site: none";
        assert_eq!(status("GET /abc/page.js", &[HOST, none]), 403);
        assert_eq!(status("POST /abc/run", &[HOST, ORIGIN, BODY, none]), 403);
        for path in ["/", "/abd/", "/ab/", "/abcd/", "/ABC/", "//abc/"] {
            assert_eq!(status(&format!("GET {path}"), &[HOST]), 403, "{path}");
        }
    }

    #[test]
    fn what_is_not_there() {
        for path in [
            "/abc",
            "/abc/x",
            "/abc/?",
            "/abc/./",
            "/abc/../",
            "/abc//",
            "/abc/page.js?x",
        ] {
            assert_eq!(status(&format!("GET {path}"), &[HOST]), 404, "{path}");
        }
        assert_eq!(status("GET /abc/run", &[HOST]), 405);
        assert_eq!(status("OPTIONS /abc/run", &[HOST]), 405);
        assert_eq!(status("HEAD /abc/", &[HOST]), 405);
        assert_eq!(
            status("POST /abc/run", &[HOST, ORIGIN, "Content-Type: text/plain"]),
            415
        );
    }

    #[test]
    fn tokens_differ() {
        let [one, other] = [(), ()].map(|()| Guard::new(String::new()).unwrap().token);
        assert!(one != other && one.len() == 32 && is_same(&one, &one));
    }
}
