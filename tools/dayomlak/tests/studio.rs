//! The studio's server, by requests: what each route answers, who is not served, and that nothing but Save writes.
//! `tests/studio` opens its page in a browser.

mod common;

use std::collections::{BTreeMap, BTreeSet};
use std::fs;
use std::io::{BufRead, BufReader, Read, Write};
use std::net::{Shutdown, TcpStream};
use std::process::{Child, Command, Stdio};

use common::{command, dayomlak, Folder};

const TEXT: &str = "a: COPY -> s.0 s.1\nb: SINK\ns: ADD -> o\no: OUT\ninput a = 1\ninput b = 2\n";
const TYPE: &str = "Content-Type: application/x-dayomlak";

/// The program with a file open, which ends with the test.
struct Studio {
    child: Child,
    folder: Folder,
    /// `127.0.0.1:PORT`.
    host: String,
    token: String,
}

/// What a request is answered.
struct Answer {
    status: u16,
    head: String,
    body: String,
}

impl Studio {
    fn new(text: &[u8]) -> Studio {
        let folder = Folder::new();
        let file = folder.write("open.ttda", text);
        Studio::of(folder, &file)
    }

    fn of(folder: Folder, file: &str) -> Studio {
        let command = command(&folder, &["studio", file]);
        Studio::started(command, folder)
    }

    fn started(mut command: Command, folder: Folder) -> Studio {
        command.stdout(Stdio::piped()).stderr(Stdio::piped());
        let mut child = command.spawn().unwrap();
        let mut line = String::new();
        let mut out = BufReader::new(child.stdout.take().unwrap());
        out.read_line(&mut line).unwrap();
        let address = line.trim().strip_prefix("http://").unwrap();
        let (host, token) = address.split_once('/').unwrap();
        Studio {
            host: host.to_string(),
            token: token.trim_end_matches('/').to_string(),
            child,
            folder,
        }
    }

    fn text(&self) -> String {
        fs::read_to_string(self.folder.path("open.ttda")).unwrap()
    }

    fn connection(&self) -> TcpStream {
        TcpStream::connect(&self.host).unwrap()
    }

    /// What some bytes are answered, if anything.
    fn send(&self, bytes: &[u8]) -> Option<Answer> {
        let mut stream = self.connection();
        // Whoever is refused at once need not be listened to.
        let _ = stream.write_all(bytes);
        let _ = stream.shutdown(Shutdown::Write);
        let mut answer = Vec::new();
        stream.read_to_end(&mut answer).unwrap();
        let answer = String::from_utf8(answer).unwrap();
        let (head, body) = answer.split_once("\r\n\r\n")?;
        let status = head.strip_prefix("HTTP/1.1 ").unwrap()[..3]
            .parse()
            .unwrap();
        Some(Answer {
            status,
            head: head.to_string(),
            body: body.to_string(),
        })
    }

    fn ask(&self, line: &str, headers: &[&str], body: &[u8]) -> Answer {
        self.send(&request(line, headers, body)).unwrap()
    }

    fn own(&self) -> [String; 2] {
        [
            format!("Host: {}", self.host),
            format!("Origin: http://{}", self.host),
        ]
    }

    fn get(&self, name: &str) -> Answer {
        let [host, _] = self.own();
        self.ask(&format!("GET /{}/{name}", self.token), &[&host], b"")
    }

    fn post(&self, name: &str, words: &str, text: &str) -> Answer {
        let [host, origin] = self.own();
        let body = format!("{words}\n{text}");
        let line = format!("POST /{}/{name}", self.token);
        self.ask(&line, &[&host, &origin, TYPE], body.as_bytes())
    }

    /// The fingerprint of the file.
    fn known(&self) -> String {
        let body = self.post("file", "", "").body;
        body.split('"').nth(3).unwrap().to_string()
    }

    /// Ends it, and answers what it has said on standard error.
    fn ended(mut self) -> String {
        self.child.kill().unwrap();
        let mut said = String::new();
        let mut err = self.child.stderr.take().unwrap();
        err.read_to_string(&mut said).unwrap();
        said
    }
}

impl Drop for Studio {
    fn drop(&mut self) {
        let _ = self.child.kill();
        let _ = self.child.wait();
    }
}

fn request(line: &str, headers: &[&str], body: &[u8]) -> Vec<u8> {
    let head = format!("{line} HTTP/1.1\r\n{}\r\n", headers.join("\r\n"));
    let length = match body.is_empty() {
        true => String::new(),
        false => format!("Content-Length: {}\r\n", body.len()),
    };
    [format!("{head}{length}\r\n").as_bytes(), body].concat()
}

#[test]
fn the_page_and_what_it_needs() {
    let studio = Studio::new(TEXT.as_bytes());
    for (name, kind, part) in [
        ("", "text/html", "<textarea id=\"editor\""),
        ("page.css", "text/css", "#lines"),
        ("page.js", "text/javascript", "inTurn"),
    ] {
        let answer = studio.get(name);
        assert_eq!(answer.status, 200, "{name}");
        assert!(answer.body.contains(part), "{name}");
        for line in [
            &format!("Content-Type: {kind}; charset=utf-8"),
            "Content-Security-Policy: default-src 'none'; style-src 'self'; script-src 'self'; connect-src 'self'; ",
            "frame-ancestors 'none'",
            "X-Content-Type-Options: nosniff",
            "Referrer-Policy: no-referrer",
            "Cross-Origin-Resource-Policy: same-origin",
            "Cache-Control: no-store",
        ] {
            assert!(answer.head.contains(line), "{name}: {line}");
        }
        assert!(!answer.head.contains("Access-Control"), "{name}");
    }
    // Nothing in the page runs or is styled but by its own files.
    let page = studio.get("").body;
    for word in ["<style", "style=", "onclick", "http:", "https:"] {
        assert!(!page.contains(word), "{word}");
    }
    assert_eq!(page.matches("<script").count(), 2);
}

#[test]
fn runs_and_pictures() {
    let studio = Studio::new(TEXT.as_bytes());
    let answer = studio.post("run", "- stop", TEXT);
    assert_eq!(answer.status, 200);
    assert!(answer
        .body
        .contains("\"answer\":\"after 0 firings, 2 tokens\""));
    let answer = studio.post("run", "1,0 stop", TEXT);
    assert!(answer.body.contains("\"picks\":[1,0]"));
    assert!(answer.body.contains("{\"name\":\"b[0]\""));
    let answer = studio.post("run", "1 oldest", TEXT);
    let words = "completed: 3 firings, 5 tokens, by hand, then oldest first from firing 2 on";
    assert!(answer.body.contains(words));
    let answer = studio.post("run", "- random:5", TEXT);
    assert!(answer
        .body
        .contains("all orders leave the same listing, equal in every byte"));
    // A run is what the text says, whatever the file has.
    let answer = studio.post("run", "- oldest", "a: DIV 0 -> o\no: OUT\ninput a = 1\n");
    assert!(answer.body.contains("\"kind\":\"refused\""));
    let answer = studio.post("run", "- stop", "a: D -> o\n");
    assert!(answer.body.contains("\"run\":null") && answer.body.contains("\"from\":3,\"to\":4"));
    let answer = studio.post("run", "- stop", "o: OUT\ninput o = 3..5\n");
    assert!(answer.body.contains("\"run\":null") && answer.body.contains("`3..5` is a range"));
    assert!(
        answer.body.contains("\"from\":17,\"to\":21"),
        "{}",
        answer.body
    );
    assert_eq!(studio.post("picture", "", "a: D -> o\n").status, 500);
    let answer = studio.post("picture", "", TEXT);
    assert!(answer.body.contains("COPY"), "{}", answer.body);
    assert_eq!(studio.text(), TEXT);
}

/// Without Graphviz all else goes on.
#[test]
fn without_a_picture() {
    let folder = Folder::new();
    let file = folder.write("open.ttda", TEXT);
    let mut command = command(&folder, &["studio", &file]);
    command.env("PATH", "");
    let studio = Studio::started(command, folder);
    let answer = studio.post("picture", "", TEXT);
    let words = "{\"picture\":\"\\u003cp\\u003edot: Graphviz is not installed";
    assert!(
        answer.status == 200 && answer.body.starts_with(words),
        "{}",
        answer.body
    );
    assert_eq!(studio.post("run", "- stop", TEXT).status, 200);
}

#[test]
fn wrong_words() {
    let studio = Studio::new(TEXT.as_bytes());
    for words in [
        "",
        "0",
        "x stop",
        "0 go",
        "0 random:x",
        "65536 stop",
        "-1 stop",
    ] {
        assert_eq!(studio.post("run", words, TEXT).status, 400, "{words}");
        let known = format!("{} {words}", studio.known());
        assert_eq!(studio.post("save", &known, "lost").status, 400, "{words}");
    }
    let many = vec!["0"; 2049].join(",") + " stop";
    assert_eq!(studio.post("run", &many, TEXT).status, 400);
    assert_eq!(studio.post("save", "without", "lost").status, 400);
    let [host, origin] = studio.own();
    for body in [&b"no line"[..], b"", b"- stop\n\xff", b"\xff stop\n"] {
        let line = format!("POST /{}/run", studio.token);
        assert_eq!(
            studio.ask(&line, &[&host, &origin, TYPE], body).status,
            400,
            "{body:?}"
        );
    }
    assert_eq!(studio.text(), TEXT);
}

/// The status of a Save that would write, if it were served.
fn status_of_save(studio: &Studio, line: &str, headers: &[&str]) -> u16 {
    let body = format!("{} without\nlost", studio.known());
    let answer = studio.ask(line, headers, body.as_bytes());
    assert!(!answer.body.contains("known") && answer.body.len() < 70);
    assert!(!answer.head.contains("Access-Control"), "{line}");
    answer.status
}

#[test]
fn other_hosts_and_origins_are_not_served() {
    let studio = Studio::new(TEXT.as_bytes());
    let [host, origin] = studio.own();
    let token = &studio.token;
    let save = |headers: &[&str]| status_of_save(&studio, &format!("POST /{token}/save"), headers);
    let port = &studio.host["127.0.0.1".len()..];
    for other in [
        "localhost",
        "127.0.0.2",
        "evil.example",
        "127.0.0.1.evil.example",
    ] {
        let other = format!("Host: {other}{port}");
        assert_eq!(save(&[&other, &origin, TYPE]), 403, "{other}");
        let page = studio.ask(&format!("GET /{token}/"), &[&other], b"");
        assert_eq!(page.status, 403, "{other}");
    }
    for other in [
        "Origin: null",
        "Origin: http://localhost:1",
        "Origin: http://evil.example",
        "X: y",
    ] {
        assert_eq!(save(&[&host, other, TYPE]), 403, "{other}");
    }
    for site in ["cross-site", "same-site", "none"] {
        let site = format!("Sec-Fetch-Site: {site}");
        assert_eq!(save(&[&host, &origin, TYPE, &site]), 403, "{site}");
    }
    assert_eq!(save(&[&host, &origin, "Content-Type: text/plain"]), 415);
    assert_eq!(save(&[&host, &host, &origin, TYPE]), 400);
    assert_eq!(studio.text(), TEXT);
    assert_eq!(save_rightly(&studio, &studio.known()), 200);
}

#[test]
fn other_addresses_and_methods_are_not_served() {
    let studio = Studio::new(TEXT.as_bytes());
    let [host, origin] = studio.own();
    let token = &studio.token;
    let save = |line: String| status_of_save(&studio, &line, &[&host, &origin, TYPE]);
    let wrong = "0".repeat(32);
    for path in [
        "/save",
        "//save",
        "/../save",
        &format!("/{wrong}/save"),
        &format!("/{}/save", &token[1..]),
    ] {
        assert_eq!(save(format!("POST {path}")), 403, "{path}");
    }
    assert_eq!(save(format!("POST /{token}/save?x")), 404);
    assert_eq!(save(format!("POST /{token}/save/")), 404);
    for method in ["GET", "PUT", "DELETE", "OPTIONS", "HEAD", "PATCH"] {
        assert_eq!(save(format!("{method} /{token}/save")), 405, "{method}");
    }
    assert_eq!(studio.text(), TEXT);
}

fn save_rightly(studio: &Studio, known: &str) -> u16 {
    studio
        .post("save", &format!("{known} without"), "new\n")
        .status
}

#[test]
fn too_much_and_too_many() {
    let studio = Studio::new(TEXT.as_bytes());
    let [host, origin] = studio.own();
    let line = format!("POST /{}/run HTTP/1.1", studio.token);
    let head = format!("{line}\r\n{host}\r\n{origin}\r\n{TYPE}\r\n");
    let sent = |rest: &str| {
        studio
            .send(format!("{head}{rest}").as_bytes())
            .map(|a| a.status)
    };
    assert_eq!(sent("Content-Length: 1048577\r\n\r\n"), Some(413));
    assert_eq!(
        sent("Content-Length: 18446744073709551616\r\n\r\n"),
        Some(413)
    );
    assert_eq!(sent("Content-Length: -1\r\n\r\n"), Some(400));
    assert_eq!(
        sent("Transfer-Encoding: chunked\r\n\r\n0\r\n\r\n"),
        Some(501)
    );
    assert_eq!(sent("Content-Length: 9\r\n\r\n- stop\n"), None);
    assert_eq!(
        sent(&format!("A: {}\r\n\r\n", "x".repeat(20_000))),
        Some(431)
    );
    // As much as may be sent, and one more.
    let text = "#".repeat((1 << 20) - 7);
    assert_eq!(studio.post("run", "- stop", &text).status, 200);
    assert_eq!(studio.post("run", "- stop", &(text + "#")).status, 413);
    // Connections that say nothing do not keep others from being served, unless they are too many.
    let mut idle: Vec<TcpStream> = (0..20).map(|_| studio.connection()).collect();
    assert_eq!(studio.get("").status, 200);
    idle.extend((0..20).map(|_| studio.connection()));
    let statuses = (0..50).map(|_| studio.get("").status);
    assert!(statuses.into_iter().any(|status| status == 503));
    drop(idle);
    let mut statuses = (0..500).map(|_| studio.get("").status);
    assert!(statuses.any(|status| status == 200));
    assert_eq!(studio.text(), TEXT);
}

#[test]
fn saving() {
    let studio = Studio::new(TEXT.as_bytes());
    let known = studio.known();
    assert_eq!(
        studio.post("file", &known, "").body,
        format!("{{\"known\":\"{known}\"}}")
    );
    let answer = studio.post("save", &format!("{known} without"), "# new\n");
    assert_eq!((answer.status, studio.text().as_str()), (200, "# new\n"));
    // What was known is no longer so.
    let answer = studio.post("save", &format!("{known} without"), "# lost\n");
    assert_eq!((answer.status, studio.text().as_str()), (409, "# new\n"));
    assert!(answer.body.contains("# new"), "{}", answer.body);
    // Another program writes it.
    let known = studio.known();
    studio.folder.write("open.ttda", "# theirs\n");
    let answer = studio.post("file", &known, "");
    assert!(
        answer.body.contains("\"text\":\"# theirs\\u000a\""),
        "{}",
        answer.body
    );
    let answer = studio.post("save", &format!("{known} without"), "# lost\n");
    assert_eq!((answer.status, studio.text().as_str()), (409, "# theirs\n"));
    // It is gone, and written again.
    fs::remove_file(studio.folder.path("open.ttda")).unwrap();
    assert_eq!(
        studio.post("file", &known, "").body,
        "{\"known\":\"none\",\"text\":null}"
    );
    assert_eq!(studio.post("save", "none without", "# again\n").status, 200);
    assert_eq!(studio.text(), "# again\n");
    // What could not be opened again is not written.
    let known = studio.known();
    for text in ["#".repeat(1_000_000), "dayomlak log 1\n".to_string()] {
        let answer = studio.post("save", &format!("{known} without"), &text);
        assert_eq!((answer.status, studio.text().as_str()), (500, "# again\n"));
    }
    // Nothing else is written, nor left.
    let files = fs::read_dir(studio.folder.path("")).unwrap();
    let names: Vec<_> = files.map(|file| file.unwrap().file_name()).collect();
    assert_eq!(names, ["open.ttda"]);
}

#[test]
fn saving_with_the_order() {
    let studio = Studio::new(TEXT.as_bytes());
    let saved = |words: &str, text: &str| {
        let answer = studio.post("save", &format!("{} {words}", studio.known()), text);
        (answer.status, studio.text())
    };
    let ordered = format!("{TEXT}order b[0] a[0]\n");
    assert_eq!(saved("1,0 stop", TEXT), (200, ordered.clone()));
    assert!(studio
        .post("run", "typed stop", &ordered)
        .body
        .contains("\"picks\":[1,0]"));
    let whole = format!("{TEXT}order a[0] b[0] s[0]\n");
    assert_eq!(saved("- oldest", &ordered), (200, whole));
    assert_eq!(saved("- stop", &ordered), (200, TEXT.to_string()));
    // A text with errors has no order, and is saved without.
    let wrong = "a: D -> o\n";
    assert_eq!(saved("0 stop", wrong), (500, TEXT.to_string()));
    assert_eq!(saved("without", wrong), (200, wrong.to_string()));
    let loads = "cell 3 = 7\ncell 4 = 8\nSINK\ninput 0 = 1\n".replace("input 0 = 1\n", "");
    assert_eq!(
        saved("1 oldest", &loads).1,
        format!("{loads}order cell 4[0] cell 3[0]\n")
    );
    let run = dayomlak(&["run", &studio.folder.path("open.ttda")]);
    run.says("in its typed order");
}

/// Lines that end as on Windows do so again.
#[test]
fn line_ends_stay() {
    let studio = Studio::new(b"# a\r\n# b\r\n");
    let answer = studio.post("file", "", "");
    assert!(
        answer.body.contains("\"# a\\u000a# b\\u000a\""),
        "{}",
        answer.body
    );
    let known = studio.known();
    let answer = studio.post("save", &format!("{known} without"), "# a\n# c\n");
    assert_eq!(
        (answer.status, studio.text().as_str()),
        (200, "# a\r\n# c\r\n")
    );
}

/// The sockets of this computer that listen: each one's own address and its inode, which tells it from every other.
fn listening_sockets() -> Vec<(String, String)> {
    let tables = ["/proc/net/tcp", "/proc/net/tcp6"]
        .map(|file| fs::read_to_string(file).unwrap_or_default());
    let lines = tables.iter().flat_map(|table| table.lines());
    let words = lines.map(|line| line.split_whitespace().collect::<Vec<_>>());
    words
        .filter(|words| words.get(3) == Some(&"0A") && words.len() > 9)
        .map(|words| (words[1].to_string(), words[9].to_string()))
        .collect()
}

#[test]
fn it_listens_on_this_computer_alone() {
    let studio = Studio::new(TEXT.as_bytes());
    let port: u16 = studio.host.split_once(':').unwrap().1.parse().unwrap();
    let ends = format!(":{port:04X}");
    // While other sockets come and go, one reading of the table may show a socket twice or pass over it.
    let own: BTreeSet<(String, String)> = (0..3).flat_map(|_| listening_sockets()).collect();
    let own: Vec<&String> = own
        .iter()
        .map(|(address, _)| address)
        .filter(|address| address.ends_with(&ends))
        .collect();
    assert_eq!(own, [&format!("0100007F{ends}")]);
    let file = studio.folder.path("open.ttda");
    let taken = dayomlak(&["studio", &file, "--port", &port.to_string()]);
    assert_eq!(taken.status, 3, "{taken:?}");
}

#[test]
fn what_is_not_opened() {
    let folder = Folder::new();
    let text = folder.write("a.ttda", TEXT);
    let saved = folder.path("a.saved");
    dayomlak(&["run", &text, "--save", &saved]);
    let binary = folder.write("binary", [0xff, 0, 1]);
    let long = folder.write("long", vec![b'#'; 1 << 20]);
    let missing = folder.path("none/a.ttda");
    for (file, status, words) in [
        ("-", 2, "opens a file"),
        (&folder.path(""), 2, "opens a file"),
        (&saved, 2, "a saved state"),
        (&binary, 2, "is no text"),
        (&long, 2, "is longer than 960 KiB"),
        ("/dev/null", 2, "is no file"),
        (&missing, 3, "there is no folder"),
    ] {
        let done = dayomlak(&["studio", file]);
        assert_eq!(done.status, status, "{done:?}");
        assert!(done.err.contains(words) && done.out.is_empty(), "{done:?}");
    }
}

/// A file that is not there yet is made by Save.
#[test]
fn a_new_file() {
    let folder = Folder::new();
    let file = folder.path("open.ttda");
    let studio = Studio::of(folder, &file);
    assert_eq!(studio.known(), "none");
    assert!(!studio.folder.exists("open.ttda"));
    assert_eq!(save_rightly(&studio, "none"), 200);
    assert_eq!(studio.text(), "new\n");
}

/// What a link leads to is written, and the link stays.
#[test]
fn a_link_stays() {
    let folder = Folder::new();
    let (file, link) = (folder.write("open.ttda", TEXT), folder.path("link.ttda"));
    std::os::unix::fs::symlink(&file, &link).unwrap();
    let studio = Studio::of(folder, &link);
    assert_eq!(save_rightly(&studio, &studio.known()), 200);
    assert_eq!(studio.text(), "new\n");
    assert_eq!(fs::read_link(&link).unwrap().to_str(), Some(file.as_str()));
}

/// Numbers for the fuzzer (splitmix64).
struct Random(u64);

impl Random {
    fn below(&mut self, most: usize) -> usize {
        self.0 = self.0.wrapping_add(0x9e37_79b9_7f4a_7c15);
        let mut word = self.0;
        word = (word ^ (word >> 30)).wrapping_mul(0xbf58_476d_1ce4_e5b9);
        word = (word ^ (word >> 27)).wrapping_mul(0x94d0_49bb_1331_11eb);
        ((word ^ (word >> 31)) % most.max(1) as u64) as usize
    }

    /// A request with some damage.
    fn damaged(&mut self, requests: &[Vec<u8>]) -> Vec<u8> {
        let mut bytes = requests[self.below(requests.len())].clone();
        for _ in 0..=self.below(4) {
            let at = self.below(bytes.len());
            match self.below(6) {
                0 => bytes.truncate(at),
                1 if at < bytes.len() => bytes[at] = self.below(256) as u8,
                2 => bytes.insert(at, b"\r\n \0:/,\xff9"[self.below(9)]),
                3 if at < bytes.len() => drop(bytes.remove(at)),
                4 => {
                    let other = &requests[self.below(requests.len())];
                    let from = self.below(other.len());
                    bytes.splice(at..at, other[from..].iter().copied());
                }
                _ => {
                    let to = (at + self.below(40)).min(bytes.len());
                    let part = bytes[at..to].to_vec();
                    bytes.splice(at..at, part);
                }
            }
        }
        bytes
    }
}

/// Requests of every kind, of which none writes: the saves know another version.
fn requests(studio: &Studio) -> Vec<Vec<u8>> {
    let [host, origin] = studio.own();
    let token = &studio.token;
    let post = |name: &str, body: String| {
        let line = format!("POST /{token}/{name}");
        request(&line, &[&host, &origin, TYPE], body.as_bytes())
    };
    vec![
        request(
            &format!("GET /{token}/"),
            &[&host, "Sec-Fetch-Site: none"],
            b"",
        ),
        request(&format!("GET /{token}/page.css"), &[&host], b""),
        post("run", format!("0,1 oldest\n{TEXT}")),
        post("run", format!("typed random:3\n{TEXT}picks 1 0\n")),
        post("file", "none\n".to_string()),
        post("save", format!("{} without\nlost", "0".repeat(64))),
        post("save", format!("{} 0,1 stop\n{TEXT}", "f".repeat(64))),
    ]
}

/// Damaged requests get an error, or no answer, and change nothing; the studio serves on.
#[test]
fn damaged_requests() {
    let studio = Studio::new(TEXT.as_bytes());
    let requests = requests(&studio);
    let mut random = Random(7);
    let mut seen = BTreeMap::new();
    for _ in 0..3000 {
        let answer = studio.send(&random.damaged(&requests));
        let status = answer.map_or(0, |answer| answer.status);
        *seen.entry(status).or_insert(0) += 1;
    }
    let known = [0, 200, 400, 403, 404, 405, 409, 413, 415, 431, 500, 501];
    assert!(seen.keys().all(|status| known.contains(status)), "{seen:?}");
    for status in [0, 200, 400, 403, 404, 405, 409, 415] {
        assert!(seen.contains_key(&status), "{status} never: {seen:?}");
    }
    assert_eq!(studio.text(), TEXT);
    assert_eq!(studio.get("").status, 200);
    assert_eq!(studio.ended(), "");
}
