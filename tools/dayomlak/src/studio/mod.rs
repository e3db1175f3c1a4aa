//! `dayomlak studio`: a page on this computer, on which a graph is typed and fired. The page asks for each firing, and the
//! engine makes it. Nothing is kept between two requests but what is already worked out of a text, so that a request
//! can change nothing but the open file, by Save.

pub mod document;
mod guard;
mod http;
mod ordered;
mod page;
mod run;
pub mod server;
mod wish;

use std::net::TcpListener;
use std::sync::{Arc, Mutex, PoisonError};

use crate::failure::Failure;
use crate::json::{object, string};
use crate::machine::Sizes;
use crate::report::html::escaped;
use document::{Document, Saved, Version};
use guard::{Guard, Route};
use http::{Answer, Request};
use run::Checked;
use wish::Wish;

pub struct Studio {
    document: Document,
    sizes: Sizes,
    guard: Guard,
    /// What was worked out last; most requests are of one text.
    last: Mutex<Option<Arc<Checked>>>,
    /// One picture at a time is drawn.
    drawing: Mutex<()>,
}

impl Studio {
    pub fn new(
        document: Document,
        sizes: Sizes,
        listener: &TcpListener,
    ) -> Result<Studio, Failure> {
        let failed = |error| Failure::File("/dev/urandom".to_string(), error);
        let host = listener.local_addr().map_err(failed)?;
        Ok(Studio {
            document,
            sizes,
            guard: Guard::new(host.to_string()).map_err(failed)?,
            last: Mutex::new(None),
            drawing: Mutex::new(()),
        })
    }

    pub fn address(&self) -> String {
        self.guard.address()
    }

    pub fn answer(&self, request: &Request) -> Answer {
        let route = match self.guard.admit(request) {
            Ok(route) => route,
            Err(answer) => return answer,
        };
        match self.served(route, request) {
            Ok(answer) => answer,
            Err(failure) => Answer::json(500, object(&[("error", string(&words(&failure)))])),
        }
    }

    fn served(&self, route: Route, request: &Request) -> Result<Answer, Failure> {
        let page = |kind, body: String| Ok(Answer::new(200, kind, body));
        match route {
            Route::Page => page("text/html", page::html(&self.document.label)),
            Route::Style => page("text/css", page::style()),
            Route::Script => page("text/javascript", page::script()),
            route => match parts(&request.body) {
                Some((words, text)) => self.asked(route, words, text),
                None => Ok(Answer::error(400, "a line and a text are needed")),
            },
        }
    }

    /// What the page asks for, by a line of words and a text.
    fn asked(&self, route: Route, words: &str, text: &str) -> Result<Answer, Failure> {
        match route {
            Route::File => self.file(words),
            Route::Picture => self.picture(text),
            Route::Save => self.save(words, text),
            _ => match words.parse() {
                Ok(wish) => self.run(text, &wish),
                Err(()) => Ok(Answer::error(400, "no picks")),
            },
        }
    }

    /// Whether the file is as the page knows it, or what it has.
    fn file(&self, known: &str) -> Result<Answer, Failure> {
        let now = self.document.now()?;
        let json = match now.known == known {
            true => object(&[("known", string(known))]),
            false => version(&now),
        };
        Ok(Answer::json(200, json))
    }

    fn run(&self, text: &str, wish: &Wish) -> Result<Answer, Failure> {
        let checked = match self.checked(text) {
            Ok(checked) => checked,
            Err(failure) => return run::faulty(failure).map(|json| Answer::json(200, json)),
        };
        Ok(Answer::json(200, checked.run(self.sizes, wish)?))
    }

    fn picture(&self, text: &str) -> Result<Answer, Failure> {
        let checked = self.checked(text)?;
        let _turn = self.drawing.lock().unwrap_or_else(PoisonError::into_inner);
        // Where there is no Graphviz, all else is there without a picture.
        let drawn = checked.picture();
        let svg = drawn.unwrap_or_else(|failure| format!("<p>{}</p>", escaped(&words(&failure))));
        Ok(Answer::json(200, object(&[("picture", string(&svg))])))
    }

    /// Writes the text, with the order of picks if there are some before it.
    fn save(&self, words: &str, text: &str) -> Result<Answer, Failure> {
        let Some((known, picks)) = words.split_once(' ') else {
            return Ok(Answer::error(400, "a version and picks are needed"));
        };
        let saved = match (picks, picks.parse::<Wish>()) {
            ("without", _) => self.document.save(known, text)?,
            (_, Err(())) => return Ok(Answer::error(400, "no picks")),
            (_, Ok(wish)) => {
                let names = self.checked(text)?.names(self.sizes, &wish)?;
                self.document
                    .save(known, &ordered::with_order(text, &names))?
            }
        };
        Ok(match saved {
            Saved::Written(now) => Answer::json(200, version(&now)),
            Saved::Changed(now) => Answer::json(409, version(&now)),
        })
    }

    /// A text without errors, and what is worked out of it.
    fn checked(&self, text: &str) -> Result<Arc<Checked>, Failure> {
        let last = || self.last.lock().unwrap_or_else(PoisonError::into_inner);
        let known = last().clone();
        if let Some(known) = known.filter(|known| known.is_of(text)) {
            return Ok(known);
        }
        let checked = Arc::new(Checked::new(&self.document.label, text, self.sizes)?);
        *last() = Some(checked.clone());
        Ok(checked)
    }
}

/// The first line of what a page sends, and the text behind it.
fn parts(body: &[u8]) -> Option<(&str, &str)> {
    std::str::from_utf8(body).ok()?.split_once('\n')
}

fn words(failure: &Failure) -> String {
    let words = failure.to_string();
    words.strip_prefix("error: ").unwrap_or(&words).to_string()
}

fn version(now: &Version) -> String {
    let text = now.text.as_deref().map(string);
    object(&[
        ("known", string(&now.known)),
        ("text", text.unwrap_or("null".to_string())),
    ])
}
