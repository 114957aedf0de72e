//! The example that resolves over HTTP, with many clients at once, and what strangers send.

use super::*;
use std::io::{Read, Write};
use std::net::{Shutdown, SocketAddr, TcpListener, TcpStream};

#[allow(dead_code)]
#[path = "../../examples/resolve_server.rs"]
mod resolve_server;

const TRACE: &[u8] = b"Error: \xff\n    at f (http://h/app.js:1:14)\n    at g (http://h/no.js:1:1)\n";
const RESOLVED: &[u8] = b"Error: \xff\n    at f (src/a.ts:2:3)\n    at g (http://h/no.js:1:1)\n";

/// A server of a thread that ends with the process.
fn served(room: &Room, time: Duration, clients: usize) -> SocketAddr {
    let listener = TcpListener::bind(("127.0.0.1", 0)).unwrap();
    let to = listener.local_addr().unwrap();
    let limits = Limits { trace_bytes: 3 << 20, ..patient_limits() };
    let resolver = Resolver::new(room.store(), H, Options { limits, ..beside() }).unwrap();
    let server = resolve_server::Server { resolver, trace_bytes: 1 << 20, time, clients };
    thread::spawn(move || server.serve(&listener));
    to
}

fn patiently(room: &Room) -> SocketAddr {
    served(room, Duration::from_secs(60), 200)
}

/// What comes back to these bytes, until the connection is closed.
fn sent(to: SocketAddr, bytes: &[u8]) -> Vec<u8> {
    let (mut stream, mut said) = (TcpStream::connect(to).unwrap(), Vec::new());
    // (a server that refuses need not read all)
    let _ = stream.write_all(bytes);
    let _ = stream.read_to_end(&mut said);
    said
}

/// The status and the body of the answer to a request.
fn asked(to: SocketAddr, first: &str, body: &[u8]) -> (u16, Vec<u8>) {
    let head = format!("{first} HTTP/1.1\r\nHost: h\r\ncontent-length: {}\r\n\r\n", body.len());
    let said = sent(to, &[head.as_bytes(), body].concat());
    let end = said.windows(4).position(|it| it == b"\r\n\r\n").expect("an answer");
    let head = std::str::from_utf8(&said[..end]).unwrap();
    let body = said[end + 4..].to_vec();
    assert!(head.contains(&format!("\r\nContent-Length: {}\r\n", body.len())), "{head}");
    (head[9..12].parse().unwrap(), body)
}

/// The first line of the answer to a request of a head alone.
fn status(to: SocketAddr, head: &str) -> String {
    String::from_utf8(sent(to, head.as_bytes())).unwrap().split("\r\n").next().unwrap().to_string()
}

#[test]
fn a_server_answers() {
    let room = Room::new();
    let to = patiently(&room);
    assert_eq!(asked(to, "POST /", TRACE), (200, RESOLVED.to_vec()));
    let frames = r#"[{"url":"http://h/app.js","line":1,"column":14,"source":"src/a.ts","sourceLine":1,"sourceColumn":2,"name":"run"},{"url":"http://h/no.js","line":1,"column":1,"reason":"not there"}]"#;
    assert_eq!(asked(to, "POST /frames", TRACE), (200, frames.into()));
    assert_eq!(asked(to, "POST /frames", b"no frame"), (200, b"[]".to_vec()));
    let (code, stats) = asked(to, "GET /stats", b"");
    let stats = String::from_utf8(stats).unwrap();
    assert_eq!(code, 200);
    assert!(stats.contains("\nresolver_traces_total 3\n") && stats.contains("{reason=\"not there\"} 2\n"), "{stats}");
    for it in ["GET /", "GET /x", "POST /stats", "HEAD /stats", "POST /frames/"] {
        assert_eq!(asked(to, it, b"").0, 404, "{it}");
    }
}

#[test]
fn a_request_may_come_in_pieces() {
    let room = Room::new();
    let to = patiently(&room);
    let head = format!("POST / HTTP/1.1\r\nContent-Length: {}\r\n\r\n", TRACE.len());
    let whole = [head.as_bytes(), TRACE].concat();
    // Cut once in each of the four bytes that end the head, on both sides of them, and in the trace.
    for cut in (head.len() - 5..=head.len() + 1).chain([1, whole.len() - 1]) {
        let (mut stream, mut said) = (TcpStream::connect(to).unwrap(), Vec::new());
        stream.write_all(&whole[..cut]).unwrap();
        thread::sleep(Duration::from_millis(50));
        stream.write_all(&whole[cut..]).unwrap();
        stream.read_to_end(&mut said).unwrap();
        assert!(said.starts_with(b"HTTP/1.1 200 OK\r\n") && said.ends_with(RESOLVED), "{cut}");
    }
}

#[test]
fn who_sends_too_much_is_told() {
    let room = Room::new();
    let (mut stream, mut said) = (TcpStream::connect(patiently(&room)).unwrap(), Vec::new());
    stream.write_all(b"POST / HTTP/1.1\r\nContent-Length: 8388608\r\n\r\n").unwrap();
    (0..128).for_each(|_| stream.write_all(&[b' '; 1 << 16]).unwrap());
    stream.read_to_end(&mut said).unwrap();
    assert!(said.starts_with(b"HTTP/1.1 413 "));
}

#[test]
fn strings_of_frames_are_json() {
    let room = Room::new();
    room.write("dist/odd.js.map", r#"{"version":3,"sources":["a\"\\\n\u0001ö.ts"],"names":[],"mappings":"AAAA"}"#, OLD);
    let said = asked(patiently(&room), "POST /frames", b"f@http://h/odd.js:1:1").1;
    let wanted = r#"[{"url":"http://h/odd.js","line":1,"column":1,"source":"a\"\\\u000a\u0001ö.ts","sourceLine":0,"sourceColumn":0,"name":null}]"#;
    assert_eq!(String::from_utf8(said).unwrap(), wanted);
}

#[test]
fn a_hundred_clients_at_once() {
    let room = Room::new();
    let to = patiently(&room);
    thread::scope(|scope| {
        for _ in 0..100 {
            scope.spawn(|| (0..3).for_each(|_| assert_eq!(asked(to, "POST /", TRACE), (200, RESOLVED.to_vec()))));
        }
    });
}

#[test]
fn hostile_requests() {
    let room = Room::new();
    let to = patiently(&room);
    let post = |more: &str| status(to, &format!("POST / HTTP/1.1\r\n{more}\r\n\r\n"));
    assert_eq!(asked(to, "POST /", &vec![b' '; 1 << 20]).0, 200);
    assert_eq!(asked(to, "POST /", &vec![b' '; (1 << 20) + 1]).0, 413);
    for length in ["1048577".to_string(), "9".repeat(5000)] {
        assert_eq!(post(&format!("Content-Length: {length}")), "HTTP/1.1 413 Content Too Large", "{length}");
    }
    for length in ["", "-1", "+1", "1e3", "0x1", "1 1", "²"] {
        assert_eq!(post(&format!("Content-Length: {length}")), "HTTP/1.1 411 Length Required", "{length}");
    }
    assert_eq!(post("Host: h"), "HTTP/1.1 411 Length Required");
    assert_eq!(post("Content-Length: 0\r\nTransfer-Encoding: chunked"), "HTTP/1.1 411 Length Required");
    assert_eq!(post("Content-Length: 0\r\nContent-Length: 1"), "HTTP/1.1 400 Bad Request");
    for head in [
        "\r\n\r\n",
        "POST /\r\n\r\n",
        "POST / HTTP/2\r\n\r\n",
        "POST / HTTP/1.1\r\nno header\r\n\r\n",
        "POST  / HTTP/1.1\r\n\r\n",
    ] {
        assert_eq!(status(to, head), "HTTP/1.1 400 Bad Request", "{head}");
    }
    assert_eq!(post(&format!("A: {}", "a".repeat(20_000))), "HTTP/1.1 400 Bad Request");
    let mut bodies = vec!["(".repeat(500_000) + ":1:1", "f@http://h/app.js:1:1\n".repeat(40_000)];
    bodies.push(format!("    at {}:1:1", "x".repeat(900_000)));
    for body in &bodies {
        assert_eq!(asked(to, "POST /", body.as_bytes()).0, 200);
    }
    assert_eq!(asked(to, "POST /frames", &[0xe9; 1_000_000]), (200, b"[]".to_vec()));
    assert_eq!(asked(to, "POST /", &[0xe9; 1_000_000]), (200, vec![0xe9; 1_000_000]));
    assert_eq!(asked(to, "POST /", TRACE), (200, RESOLVED.to_vec()));
}

#[test]
fn a_client_that_hangs_up_or_is_slow_is_let_go_of() {
    let room = Room::new();
    let to = served(&room, Duration::from_secs(3), 3);
    let start = Instant::now();
    let slow = ["POST / HTTP/1.1\r\nHost: h\r\nConten", "POST / HTTP/1.1\r\nContent-Length: 9\r\n\r\nabc", ""];
    let mut drops = TcpStream::connect(to).unwrap();
    drops.write_all(b"POST / HTTP/1.1\r\nContent-Length: 9\r\n\r\n").unwrap();
    drops.shutdown(Shutdown::Both).unwrap();
    thread::sleep(Duration::from_millis(300));
    let mut held: Vec<_> = slow.map(|it| (it, TcpStream::connect(to).unwrap())).into();
    for (said, stream) in &mut held {
        stream.write_all(said.as_bytes()).unwrap();
    }
    thread::sleep(Duration::from_millis(300));
    assert_eq!(status(to, "GET /stats HTTP/1.1\r\n\r\n"), "HTTP/1.1 503 Service Unavailable");
    for (_, mut stream) in held {
        let mut said = Vec::new();
        let _ = stream.read_to_end(&mut said);
        assert_eq!(said, b"");
    }
    let trickles = TcpStream::connect(to).unwrap();
    let mut written = 0;
    // (each byte comes in time, and all of them do not)
    while (&trickles).write_all(b"P").is_ok() && written < 100 {
        thread::sleep(Duration::from_millis(100));
        written += 1;
    }
    assert!(written < 100 && start.elapsed() > Duration::from_secs(3), "{written}");
    assert_eq!(asked(to, "POST /", TRACE), (200, RESOLVED.to_vec()));
}
