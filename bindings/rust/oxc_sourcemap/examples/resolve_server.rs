//! resolve_server FOLDER BASE [PORT]: resolves stack traces over HTTP.
//!
//! FOLDER has codes and maps, which traces name below the URL BASE. `POST /` of a trace answers with the trace resolved, as `POST /frames`
//! with its frames as JSON, and `GET /stats` with counts, as Prometheus scrapes them. It listens on 127.0.0.1, and prints the URL.
//!
//! A client has TIME for all of its request, and as long to read the answer; each has a connection and a thread of its own. A trace without
//! a length is answered by 411, one that is too long by 413, a head that is too long or none by 400, and a client above CLIENTS at once by
//! 503.

use oxc_sourcemap::resolver::{Cache, Error, FolderStore, Limits, Options, Resolved, Resolver};
use std::collections::HashMap;
use std::fmt::Write as _;
use std::io::{self, ErrorKind, Read, Write};
use std::net::{Shutdown, TcpListener, TcpStream};
use std::sync::Arc;
use std::sync::atomic::{AtomicUsize, Ordering};
use std::thread;
use std::time::{Duration, Instant};

const TIME: Duration = Duration::from_secs(10);
const CLIENTS: usize = 200;
/// Bytes of a trace. (The resolver takes three times as many: a byte that is not UTF-8 becomes three.)
const TRACE: usize = 1 << 20;
/// Bytes of the head of a request.
const HEAD: usize = 16 << 10;
/// For how long what a client still sends is read, so that it gets the answer that refuses it.
const LINGER: Duration = Duration::from_secs(2);
const TEXT: &str = "text/plain; charset=utf-8";

/// What clients are answered from, and their limits.
pub struct Server {
    pub resolver: Resolver,
    pub trace_bytes: usize,
    pub time: Duration,
    pub clients: usize,
}

/// A connection until some time, however little a client sends or reads at once.
struct Timed {
    stream: TcpStream,
    end: Instant,
}

impl Timed {
    fn rest(&self) -> io::Result<Option<Duration>> {
        let rest = self.end.saturating_duration_since(Instant::now());
        if rest.is_zero() { Err(ErrorKind::TimedOut.into()) } else { Ok(Some(rest)) }
    }
}

impl Read for Timed {
    fn read(&mut self, out: &mut [u8]) -> io::Result<usize> {
        self.stream.set_read_timeout(self.rest()?)?;
        self.stream.read(out)
    }
}

impl Write for Timed {
    fn write(&mut self, data: &[u8]) -> io::Result<usize> {
        self.stream.set_write_timeout(self.rest()?)?;
        self.stream.write(data)
    }

    fn flush(&mut self) -> io::Result<()> {
        self.stream.flush()
    }
}

struct Answer {
    status: &'static str,
    kind: &'static str,
    body: Vec<u8>,
}

fn refusal(status: &'static str) -> Answer {
    Answer { status, kind: TEXT, body: Vec::new() }
}

/// The first line of a request, and the length that its headers have of its body.
struct Head {
    method: String,
    path: String,
    length: Option<String>,
}

/// The head in these bytes; None if they are none, or have several lengths. A body that comes in chunks has no length.
fn head_of(bytes: &[u8]) -> Option<Head> {
    let mut lines = std::str::from_utf8(bytes).ok()?.split("\r\n");
    let [method, path, version] = lines.next()?.split(' ').collect::<Vec<_>>().try_into().ok()?;
    let headers: Vec<_> = lines.map(|it| it.split_once(':')).collect::<Option<_>>()?;
    let of = |name: &str| {
        headers.iter().filter(|it| it.0.eq_ignore_ascii_case(name)).map(|it| it.1.trim()).collect::<Vec<_>>()
    };
    let lengths = of("Content-Length");
    if !version.starts_with("HTTP/1.") || lengths.len() > 1 {
        return None;
    }
    let length = lengths.first().filter(|_| of("Transfer-Encoding").is_empty()).map(|it| it.to_string());
    Some(Head { method: method.into(), path: path.into(), length })
}

/// The head of a request and what was read behind it; None if there is none up to the limit.
fn read_head(from: &mut Timed) -> io::Result<Option<(Head, Vec<u8>)>> {
    let (mut read, mut part, mut searched) = (Vec::new(), [0; 4096], 0);
    loop {
        if let Some(at) = read[searched..].windows(4).position(|it| it == b"\r\n\r\n") {
            let end = searched + at;
            return Ok(head_of(&read[..end]).map(|head| (head, read.split_off(end + 4))));
        }
        searched = read.len().saturating_sub(3);
        let count = if read.len() < HEAD { from.read(&mut part)? } else { 0 };
        if count == 0 {
            return Ok(None);
        }
        read.extend_from_slice(&part[..count]);
    }
}

/// The bytes of a trace, of which some were read; else the answer that refuses it.
fn read_trace(from: &mut Timed, head: &Head, mut read: Vec<u8>, most: usize) -> io::Result<Result<Vec<u8>, Answer>> {
    let digits = head.length.as_deref().filter(|it| !it.is_empty() && it.bytes().all(|digit| digit.is_ascii_digit()));
    let Some(digits) = digits else { return Ok(Err(refusal("411 Length Required"))) };
    let Some(length) = digits.parse().ok().filter(|it: &usize| *it <= most) else {
        return Ok(Err(refusal("413 Content Too Large")));
    };
    let known = read.len().min(length);
    read.resize(length, 0);
    from.read_exact(&mut read[known..])?;
    Ok(Ok(read))
}

fn push_string(out: &mut String, text: &str) {
    out.push('"');
    for it in text.chars() {
        match it {
            '"' | '\\' => out.extend(['\\', it]),
            // (a String takes all that is written)
            it if it < ' ' => write!(out, "\\u{:04x}", u32::from(it)).unwrap_or(()),
            it => out.push(it),
        }
    }
    out.push('"');
}

/// A frame as JSON. Its own line and column count from 1, the others from 0.
fn push_frame(out: &mut String, found: &Resolved) {
    out.push_str("{\"url\":");
    push_string(out, &found.frame.url);
    let _ = write!(out, ",\"line\":{},\"column\":{}", found.frame.line, found.frame.column);
    match &found.original {
        Ok(origin) => {
            out.push_str(",\"source\":");
            push_string(out, &origin.source);
            let _ = write!(out, ",\"sourceLine\":{},\"sourceColumn\":{},\"name\":", origin.line, origin.column);
            match &origin.name {
                Some(name) => push_string(out, name),
                None => out.push_str("null"),
            }
        }
        Err(why) => {
            out.push_str(",\"reason\":");
            push_string(out, why.reason.as_str());
        }
    }
    out.push('}');
}

fn frames_json(frames: &[Resolved]) -> String {
    let mut out = String::from("[");
    for (at, it) in frames.iter().enumerate() {
        out.push_str(if at == 0 { "" } else { "," });
        push_frame(&mut out, it);
    }
    out + "]"
}

impl Server {
    fn resolved(&self, path: &str, trace: &[u8]) -> Result<Answer, Error> {
        if path == "/" {
            return Ok(Answer { status: "200 OK", kind: TEXT, body: self.resolver.resolve_bytes(trace)? });
        }
        let frames = self.resolver.resolve_trace(&String::from_utf8_lossy(trace), &HashMap::new())?;
        Ok(Answer { status: "200 OK", kind: "application/json", body: frames_json(&frames).into() })
    }

    /// The answer to a request.
    fn answer(&self, from: &mut Timed) -> io::Result<Answer> {
        let Some((head, read)) = read_head(from)? else { return Ok(refusal("400 Bad Request")) };
        match (head.method.as_str(), head.path.as_str()) {
            ("GET", "/stats") => {
                Ok(Answer { status: "200 OK", kind: TEXT, body: self.resolver.counts().prometheus().into() })
            }
            ("POST", path @ ("/" | "/frames")) => Ok(match read_trace(from, &head, read, self.trace_bytes)? {
                Ok(trace) => self.resolved(path, &trace).unwrap_or_else(|_| refusal("413 Content Too Large")),
                Err(refused) => refused,
            }),
            _ => Ok(refusal("404 Not Found")),
        }
    }

    /// Answers a client, and hangs up.
    fn attend(&self, stream: TcpStream) -> io::Result<()> {
        let mut client = Timed { stream, end: Instant::now() + self.time };
        let answer = self.answer(&mut client)?;
        client.end = Instant::now() + self.time;
        say(&mut client, &answer)?;
        client.end = Instant::now() + LINGER;
        io::copy(&mut client, &mut io::sink()).map(drop)
    }

    /// Answers all who connect.
    pub fn serve(self, listener: &TcpListener) {
        let (server, free) = (Arc::new(self), Arc::new(AtomicUsize::new(0)));
        for stream in listener.incoming().flatten() {
            let taken = Taken::of(&free);
            if taken.before >= server.clients {
                let mut client = Timed { stream, end: Instant::now() + LINGER };
                // (nobody waits for a client that does not read)
                let _ = client
                    .stream
                    .set_nonblocking(true)
                    .and_then(|()| say(&mut client, &refusal("503 Service Unavailable")));
                continue;
            }
            let server = Arc::clone(&server);
            // (a client that hangs up is answered no more; of a thread that cannot be had the client is hung up on)
            let _ = thread::Builder::new().spawn(move || {
                let _taken = taken;
                server.attend(stream)
            });
        }
    }
}

fn say(to: &mut Timed, answer: &Answer) -> io::Result<()> {
    let Answer { status, kind, body } = answer;
    let length = body.len();
    let more = "X-Content-Type-Options: nosniff\r\nConnection: close\r\n\r\n";
    let head = format!("HTTP/1.1 {status}\r\nContent-Type: {kind}\r\nContent-Length: {length}\r\n{more}");
    to.write_all(&[head.as_bytes(), body].concat())?;
    to.stream.shutdown(Shutdown::Write)
}

/// The place of a client, which is free again when this is dropped; how many were taken before.
struct Taken {
    count: Arc<AtomicUsize>,
    before: usize,
}

impl Taken {
    fn of(count: &Arc<AtomicUsize>) -> Taken {
        Taken { count: Arc::clone(count), before: count.fetch_add(1, Ordering::Relaxed) }
    }
}

impl Drop for Taken {
    fn drop(&mut self) {
        self.count.fetch_sub(1, Ordering::Relaxed);
    }
}

fn main() -> Result<(), Box<dyn std::error::Error>> {
    let words: Vec<_> = std::env::args().skip(1).collect();
    let (folder, base, port) = match words.as_slice() {
        [folder, base] => (folder, base, 0),
        [folder, base, port] => (folder, base, port.parse()?),
        _ => return Err("resolve_server FOLDER BASE [PORT]".into()),
    };
    let limits = Limits { time: TIME / 2, trace_bytes: 3 * TRACE, ..Limits::default() };
    let options = Options { cache: Cache::Beside, limits, ..Options::default() };
    let resolver = Resolver::new(FolderStore::new(folder)?, base.as_str(), options)?;
    let listener = TcpListener::bind(("127.0.0.1", port))?;
    println!("http://{}/", listener.local_addr()?);
    Server { resolver, trace_bytes: TRACE, time: TIME, clients: CLIENTS }.serve(&listener);
    Ok(())
}
