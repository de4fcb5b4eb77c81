//! Both ends of the transfer of a file by ranges, with one connection for each request, and a client that measures.

use crate::feed::{Feed, Keep, Reply, PIECE_LIMIT};
use crate::names::Name;
use std::fs::File;
use std::io::{Error, ErrorKind, Read, Result, Write};
use std::net::{TcpListener, TcpStream};
use std::os::unix::ffi::OsStrExt;
use std::os::unix::fs::FileExt;
use std::path::Path;

/// Reads into `buf` up to the end of a head or past it, and returns the length of the head.
fn read_head(from: &mut impl Read, buf: &mut Vec<u8>) -> Result<usize> {
    buf.clear();
    buf.resize(8192, 0);
    let mut have = 0;
    loop {
        let n = from.read(&mut buf[have..])?;
        if n == 0 {
            return Err(Error::new(ErrorKind::UnexpectedEof, "head"));
        }
        let start = have.saturating_sub(3);
        have += n;
        if let Some(at) = buf[start..have].windows(4).position(|w| w == b"\r\n\r\n") {
            buf.truncate(have);
            return Ok(start + at + 4);
        }
        if have == buf.len() {
            return Err(Error::new(ErrorKind::InvalidData, "head too long"));
        }
    }
}

fn fields(head: &[u8]) -> impl Iterator<Item = (&[u8], &[u8])> {
    head.split(|&b| b == b'\n').skip(1).filter_map(|line| {
        let line = line.strip_suffix(b"\r").unwrap_or(line);
        let at = line.iter().position(|&b| b == b':')?;
        Some((&line[..at], line[at + 1..].trim_ascii()))
    })
}

fn only<'a>(head: &'a [u8], name: &str) -> Option<&'a [u8]> {
    let mut found = fields(head).filter(|f| f.0.eq_ignore_ascii_case(name.as_bytes())).map(|f| f.1);
    let first = found.next()?;
    found.next().is_none().then_some(first)
}

fn number(text: &[u8]) -> Option<u64> {
    if text.is_empty() || !text.iter().all(u8::is_ascii_digit) {
        return None;
    }
    Some(std::str::from_utf8(text).ok()?.parse().unwrap_or(u64::MAX))
}

enum Ask {
    Whole,
    Part(u64, u64),
    Unsatisfied,
}

fn range_of(value: &[u8], length: u64) -> Ask {
    let Some((unit, rest)) = value.split_at_checked(6) else {
        return Ask::Whole;
    };
    let Some(dash) = rest.iter().position(|&b| b == b'-') else {
        return Ask::Whole;
    };
    let (first, last) = (&rest[..dash], &rest[dash + 1..]);
    if !unit.eq_ignore_ascii_case(b"bytes=") {
        return Ask::Whole;
    }
    match (number(first), number(last), first.is_empty(), last.is_empty()) {
        (Some(a), Some(b), _, _) if a > b => Ask::Whole,
        (Some(a), Some(_), _, _) if a >= length => Ask::Unsatisfied,
        (Some(a), Some(b), _, _) => Ask::Part(a, b.min(length - 1)),
        (Some(a), None, _, true) if a >= length => Ask::Unsatisfied,
        (Some(a), None, _, true) => Ask::Part(a, length - 1),
        (None, Some(0), true, _) => Ask::Unsatisfied,
        (None, Some(_), true, _) if length == 0 => Ask::Whole,
        (None, Some(n), true, _) => Ask::Part(length - n.min(length), length - 1),
        _ => Ask::Whole,
    }
}

fn serve_one(stream: &mut TcpStream, dir: &Path, buf: &mut Vec<u8>, body: &mut Vec<u8>) -> Result<u16> {
    let end = read_head(stream, buf)?;
    let head = &buf[..end];
    let short = |stream: &mut TcpStream, status: u16, text: &str| {
        let reply = format!("HTTP/1.1 {status} {text}\r\nContent-Length: 0\r\nConnection: close\r\n\r\n");
        stream.write_all(reply.as_bytes()).map(|_| status)
    };
    let line = head.split(|&b| b == b'\r').next().unwrap_or(b"");
    let words: Vec<&[u8]> = line.split(|&b| b == b' ').collect();
    if words.len() != 3 || (words[2] == b"HTTP/1.1" && only(head, "Host").is_none()) {
        return short(stream, 400, "Bad Request");
    }
    let is_head = words[0] == b"HEAD";
    if (!is_head && words[0] != b"GET") || fields(head).any(|f| f.0.eq_ignore_ascii_case(b"transfer-encoding")) {
        return short(stream, 501, "Not Implemented");
    }
    let name = words[1].strip_prefix(b"/").and_then(|n| Name::parse(n).ok());
    let file = name.and_then(|n| File::open(dir.join(Path::new(std::ffi::OsStr::from_bytes(&n.text)))).ok());
    let Some(file) = file else {
        return short(stream, 404, "Not Found");
    };
    let length = file.metadata()?.len();
    let ask = match only(head, "Range") {
        Some(value) if !is_head && fields(head).all(|f| !f.0.eq_ignore_ascii_case(b"if-range")) => range_of(value, length),
        _ => Ask::Whole,
    };
    let (status, first, count, range) = match ask {
        Ask::Whole => ("200 OK", 0, length, String::new()),
        Ask::Part(a, b) => ("206 Partial Content", a, b - a + 1, format!("Content-Range: bytes {a}-{b}/{length}\r\n")),
        Ask::Unsatisfied => {
            let reply = format!(
                "HTTP/1.1 416 Range Not Satisfiable\r\nAccept-Ranges: bytes\r\nContent-Range: bytes */{length}\r\nContent-Length: 0\r\nConnection: close\r\n\r\n"
            );
            return stream.write_all(reply.as_bytes()).map(|_| 416);
        }
    };
    body.clear();
    write!(
        body,
        "HTTP/1.1 {status}\r\nContent-Type: application/octet-stream\r\nAccept-Ranges: bytes\r\n{range}Content-Length: {count}\r\nConnection: close\r\n\r\n"
    )?;
    let mut at = first;
    let mut left = if is_head { 0 } else { count };
    loop {
        let from = body.len();
        let n = left.min(1 << 20);
        body.resize(from + n as usize, 0);
        file.read_exact_at(&mut body[from..], at)?;
        stream.write_all(body)?;
        body.clear();
        at += n;
        left -= n;
        if left == 0 {
            return Ok(if status.starts_with("206") { 206 } else { 200 });
        }
    }
}

pub fn serve(dir: &Path, addr: &str, count: u64) -> u8 {
    let Ok(listener) = TcpListener::bind(addr) else {
        eprintln!("kbfeed: Bind");
        return 3;
    };
    println!("listening");
    let (mut buf, mut body) = (Vec::new(), Vec::new());
    for _ in 0..count {
        let Ok((mut stream, _)) = listener.accept() else {
            eprintln!("kbfeed: Accept");
            return 3;
        };
        match serve_one(&mut stream, dir, &mut buf, &mut body) {
            Ok(status) => println!("served {status}"),
            Err(_) => println!("fault Short"),
        }
    }
    0
}

fn ask_range(addr: &str, name: &[u8], first: u64, last: u64, buf: &mut Vec<u8>, body: &mut Vec<u8>) -> Result<(u64, u64)> {
    let mut stream = TcpStream::connect(addr)?;
    let mut request = b"GET /".to_vec();
    request.extend_from_slice(name);
    write!(
        request,
        " HTTP/1.1\r\nHost: {addr}\r\nRange: bytes={first}-{last}\r\nAccept-Encoding: identity\r\nConnection: close\r\n\r\n"
    )?;
    stream.write_all(&request)?;
    let end = read_head(&mut stream, buf)?;
    let head = &buf[..end];
    let bad = |why: &str| Error::new(ErrorKind::InvalidData, why.to_string());
    if head.get(9..12) != Some(b"206") {
        return Err(bad("status"));
    }
    let range = only(head, "Content-Range").and_then(|v| v.strip_prefix(b"bytes ")).ok_or_else(|| bad("range"))?;
    let dash = range.iter().position(|&b| b == b'-').ok_or_else(|| bad("range"))?;
    let slash = range.iter().position(|&b| b == b'/').ok_or_else(|| bad("range"))?;
    let first = number(&range[..dash]).ok_or_else(|| bad("range"))?;
    let last = number(&range[dash + 1..slash]).ok_or_else(|| bad("range"))?;
    let total = number(&range[slash + 1..]).ok_or_else(|| bad("range"))?;
    if last < first || last - first >= PIECE_LIMIT as u64 {
        return Err(bad("length"));
    }
    let count = (last - first + 1) as usize;
    body.resize(count, 0);
    let early = &buf[end..];
    if early.len() > count {
        return Err(bad("length"));
    }
    body[..early.len()].copy_from_slice(early);
    stream.read_exact(&mut body[early.len()..])?;
    Ok((first, total))
}

fn ask_size(addr: &str, name: &[u8], buf: &mut Vec<u8>) -> Result<u64> {
    let mut stream = TcpStream::connect(addr)?;
    let mut request = b"HEAD /".to_vec();
    request.extend_from_slice(name);
    write!(request, " HTTP/1.1\r\nHost: {addr}\r\nAccept-Encoding: identity\r\nConnection: close\r\n\r\n")?;
    stream.write_all(&request)?;
    let end = read_head(&mut stream, buf)?;
    let bad = || Error::new(ErrorKind::InvalidData, "head");
    if buf.get(9..12) != Some(b"200") {
        return Err(bad());
    }
    only(&buf[..end], "Content-Length").and_then(number).ok_or_else(bad)
}

/// Downloads a file in ranges with one connection each, stores each piece, and switches to the file.
pub fn fetch<K: Keep>(feed: &mut Feed<K>, addr: &str, name: &Name, piece: u64) -> u8 {
    let (mut buf, mut body) = (Vec::new(), Vec::new());
    let size = match ask_size(addr, &name.text, &mut buf) {
        Ok(size) => size,
        Err(e) => {
            eprintln!("kbfeed: {e}");
            return 3;
        }
    };
    println!("size {size}");
    let reply = feed.offered(name, size);
    println!("{reply}");
    if reply.is_refusal() || matches!(reply, Reply::Broken(_)) {
        return 1;
    }
    if matches!(reply, Reply::Older) {
        return 0;
    }
    while let Some((first, last)) = feed.next_range(name, piece) {
        let (place, total) = match ask_range(addr, &name.text, first, last, &mut buf, &mut body) {
            Ok(got) => got,
            Err(e) => {
                println!("nothing");
                eprintln!("kbfeed: {e}");
                return 3;
            }
        };
        let reply = feed.piece(name, place, Some(total), &body);
        println!("{reply}");
        match reply {
            Reply::Stored(_) | Reply::Activated => {}
            Reply::Older => return 0,
            Reply::Repeated => {
                eprintln!("kbfeed: NoProgress");
                return 1;
            }
            _ => return 1,
        }
    }
    let is_reported = feed.report(name.package()).is_some_and(|(active, _)| active == name);
    u8::from(!is_reported)
}

/// Downloads `size` bytes in ranges, `rounds` times over, keeps nothing, and returns the number of requests.
pub fn request_ranges(addr: &str, name: &[u8], size: u64, piece: u64, rounds: u64) -> Result<u64> {
    let (mut buf, mut body) = (Vec::new(), Vec::new());
    let mut requests = 0;
    for _ in 0..rounds {
        let mut at = 0;
        while at < size {
            let last = (at + piece).min(size) - 1;
            let (first, _) = ask_range(addr, name, at, last, &mut buf, &mut body)?;
            if first != at || body.len() as u64 != last - at + 1 {
                return Err(Error::new(ErrorKind::InvalidData, "another range"));
            }
            at = last + 1;
            requests += 1;
        }
    }
    Ok(requests)
}
