//! Connections: each has a thread, a few at a time, and a limit of time.

use std::io::{self, Read};
use std::net::{Ipv4Addr, Shutdown, TcpListener, TcpStream};
use std::sync::atomic::{AtomicUsize, Ordering};
use std::sync::Arc;
use std::thread;
use std::time::{Duration, Instant};

use super::http::{self, Answer, Fault};
use super::Studio;
use crate::failure::Failure;

/// A browser opens some at once, and holds some open that it may need.
const MOST_CONNECTIONS: usize = 32;
/// How many are told that there are too many; the others are closed.
const MOST_THREADS: usize = 64;
/// A request that is not there by then is not waited for, nor is a reader of its answer.
const PATIENCE: Duration = Duration::from_secs(10);
/// The engine is given as much as in the program's first thread.
const STACK: usize = 8 << 20;

/// Listens on this computer alone.
pub fn listener(port: u16) -> Result<TcpListener, Failure> {
    TcpListener::bind((Ipv4Addr::LOCALHOST, port))
        .map_err(|error| Failure::File(format!("127.0.0.1:{port}"), error))
}

/// Serves one connection after the other, and several at a time.
pub fn serve(listener: &TcpListener, studio: Studio) {
    let (studio, open) = (Arc::new(studio), Arc::new(AtomicUsize::new(0)));
    for stream in listener.incoming() {
        let Ok(stream) = stream else {
            // There may be too many open files, which is over some time.
            thread::sleep(Duration::from_millis(100));
            continue;
        };
        let (studio, place) = (studio.clone(), Place::new(&open));
        if place.number >= MOST_THREADS {
            continue;
        }
        let thread = thread::Builder::new().stack_size(STACK);
        // A connection that no thread can be had for is closed.
        let _ = thread.spawn(move || attend(&stream, &studio, &place));
    }
}

/// One of the connections that are open.
struct Place {
    open: Arc<AtomicUsize>,
    /// How many were open before it.
    number: usize,
}

impl Place {
    fn new(open: &Arc<AtomicUsize>) -> Place {
        Place {
            open: open.clone(),
            number: open.fetch_add(1, Ordering::SeqCst),
        }
    }
}

impl Drop for Place {
    fn drop(&mut self) {
        self.open.fetch_sub(1, Ordering::SeqCst);
    }
}

/// Reads a request and answers it. Whoever has gone meanwhile needs no answer.
fn attend(stream: &TcpStream, studio: &Studio, place: &Place) {
    let mut limited = Limited {
        stream,
        until: Instant::now() + PATIENCE,
    };
    let answer = match place.number < MOST_CONNECTIONS {
        false => Answer::error(503, "too many connections"),
        true => match http::read(&mut limited) {
            Ok(request) => studio.answer(&request),
            Err(Fault::Wrong(answer)) => answer,
            Err(Fault::Lost) => return,
        },
    };
    let _ = stream
        .set_write_timeout(Some(PATIENCE))
        .and_then(|()| answer.write(&mut &*stream))
        .and_then(|()| close(stream));
}

/// Closes a connection such that an answer before the end of a request is read, too.
fn close(stream: &TcpStream) -> io::Result<()> {
    stream.shutdown(Shutdown::Write)?;
    let rest = Limited {
        stream,
        until: Instant::now() + Duration::from_secs(1),
    };
    io::copy(&mut rest.take(2 * http::MOST_BODY as u64), &mut io::sink())?;
    Ok(())
}

/// A connection that is read up to a moment.
struct Limited<'s> {
    stream: &'s TcpStream,
    until: Instant,
}

impl Read for Limited<'_> {
    fn read(&mut self, room: &mut [u8]) -> io::Result<usize> {
        let left = self.until.saturating_duration_since(Instant::now());
        if left.is_zero() {
            return Err(io::ErrorKind::TimedOut.into());
        }
        self.stream.set_read_timeout(Some(left))?;
        let mut stream = self.stream;
        stream.read(room)
    }
}
