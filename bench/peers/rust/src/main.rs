//! Peers of `kbfeed`: the commands of the benchmark in plain Rust, over the `csv` crate and stock SQLite, and a client
//! that requests ranges.

mod feed;
mod http;
mod kbart;
mod names;
mod query;
mod script;
mod segments;
mod sq;

use feed::{Change, Feed, Keep, State};
use kbart::{Bad, Reason, Streamed, FILE_LIMIT};
use names::Name;
use query::Query;
use std::ffi::OsString;
use std::fmt::Display;
use std::fs::File;
use std::io::{BufWriter, Read, Write};
use std::os::unix::ffi::OsStrExt;
use std::path::Path;
use std::sync::atomic::Ordering;

const USAGE: &str = "commands:
  replay [--segments tree|list]                      a script on standard input
  check FILE | check-stream FILE
  serve DIR ADDR --count N
  fetch DB ADDR NAME --piece N [--journal wal|delete]
  store DB FILE --piece N [--journal wal|delete]
  load DB                                            opens and loads a database
  ask DB PACKAGE QUERY
  ranges ADDR NAME SIZE PIECE ROUNDS                 requests ranges, to measure a server";

fn fault(text: impl Display, status: u8) -> u8 {
    eprintln!("kbfeed: {text}");
    status
}

fn print_check(result: Result<(u64, &[(u32, Reason)]), Bad>) -> u8 {
    let mut out = BufWriter::with_capacity(1 << 16, std::io::stdout().lock());
    let (text, status) = match result {
        Err(bad) => (writeln!(out, "broken {bad}"), 1),
        Ok((rows, aside)) => {
            let mut text = writeln!(out, "rows {} aside {}", rows, aside.len());
            for (number, reason) in aside {
                text = text.and(writeln!(out, "aside {} {}", number, reason.text()));
            }
            (text, 0)
        }
    };
    match text.and(out.flush()) {
        Ok(()) => status,
        Err(_) => 3,
    }
}

/// Opens a file, and parses its name.
fn named(file: &OsString) -> Result<(File, Name), u8> {
    let opened = File::open(file).map_err(|_| fault("Read", 3))?;
    let last = file.as_bytes().rsplit(|&b| b == b'/').next().unwrap_or(b"");
    let name = Name::parse(last).map_err(|why| fault(format!("{why:?}"), 1))?;
    Ok((opened, name))
}

fn print_release(name: &Name) {
    println!("release {}", String::from_utf8_lossy(&name.text));
}

/// Reads a whole file into memory, and keeps its rows.
fn check(file: &OsString) -> Result<u8, u8> {
    let (opened, name) = named(file)?;
    print_release(&name);
    let mut text = Vec::new();
    opened.take(FILE_LIMIT + 1).read_to_end(&mut text).map_err(|_| fault("Read", 3))?;
    if text.len() as u64 > FILE_LIMIT {
        return Err(fault("TooLong", 1));
    }
    Ok(match kbart::read_parts(std::iter::once(text.as_slice())) {
        Err(bad) => print_check(Err(bad)),
        Ok(holdings) => print_check(Ok((holdings.rows.len() as u64, &holdings.aside))),
    })
}

/// Checks a file in one pass, and keeps only the reasons.
fn check_stream(file: &OsString) -> Result<u8, u8> {
    let (opened, name) = named(file)?;
    print_release(&name);
    match kbart::read_stream(opened) {
        Err(_) => Err(fault("Read", 3)),
        Ok(Streamed::TooLong) => Err(fault("TooLong", 1)),
        Ok(Streamed::Bad(bad)) => Ok(print_check(Err(bad))),
        Ok(Streamed::Good { rows, aside }) => Ok(print_check(Ok((rows, &aside)))),
    }
}

/// Opens a database, and builds the rows of its active releases.
fn opened(db: &OsString, journal: &str) -> Result<Feed<sq::SqlKeep>, u8> {
    let keep = sq::SqlKeep::open(db.as_bytes(), journal).map_err(|why| fault(why, 1))?;
    let releases = keep.load().map_err(|why| fault(why, 1))?;
    Feed::open(keep, releases).map_err(|why| fault(why, 1))
}

fn ask(db: &OsString, package: &OsString, query: &OsString) -> Result<u8, u8> {
    let query = Query::read(query.as_bytes()).map_err(|why| fault(format!("{why:?}"), 1))?;
    let feed = opened(db, "wal")?;
    let (name, holdings) = feed.report(package.as_bytes()).ok_or_else(|| fault("NoRelease", 1))?;
    let hits = query::answer(holdings, &query);
    let mut out = BufWriter::new(std::io::stdout().lock());
    let written = query::write_answer(&mut out, &name.text, holdings, &hits);
    Ok(u8::from(written.and(out.flush()).is_err()) * 3)
}

fn fetch(db: &OsString, addr: &str, name: &OsString, piece: u64, journal: &str) -> Result<u8, u8> {
    let name = Name::parse(name.as_bytes()).map_err(|why| fault(format!("{why:?}"), 2))?;
    Ok(http::fetch(&mut opened(db, journal)?, addr, &name, piece))
}

/// Stores the pieces of a file, with one transaction each, and parses none of it.
fn store(db: &OsString, file: &OsString, piece: usize, journal: &str) -> Result<u8, u8> {
    let (_, name) = named(file)?;
    let text = std::fs::read(file).map_err(|_| fault("Read", 3))?;
    let refused = |why: String| fault(why, 1);
    let mut keep = sq::SqlKeep::open(db.as_bytes(), journal).map_err(refused)?;
    keep.commit(&Change::Add { name: &name, size: text.len() as u64, state: State::Staged }).map_err(refused)?;
    let mut first = 0;
    while first < text.len() {
        let end = (first + piece).min(text.len());
        let parts = [(first as u64, text[first..end].to_vec())];
        let change = if end == text.len() {
            Change::Activate { name: &name, parts: &parts }
        } else {
            Change::Pieces { name: &name, parts: &parts }
        };
        keep.commit(&change).map_err(refused)?;
        first = end;
    }
    Ok(0)
}

fn replay() -> u8 {
    let mut script = Vec::new();
    match std::io::stdin().lock().take(16_777_217).read_to_end(&mut script) {
        Ok(_) => script::replay(&script),
        Err(_) => fault("Read", 3),
    }
}

/// Removes an option with its value from the arguments.
fn option(words: &mut Vec<OsString>, name: &str, default: &str) -> String {
    match words.iter().position(|word| word == name) {
        Some(at) if at + 1 < words.len() => words.drain(at..at + 2).nth(1).unwrap().to_string_lossy().into_owned(),
        _ => default.to_string(),
    }
}

fn main() {
    let mut words: Vec<OsString> = std::env::args_os().skip(1).collect();
    let count: u64 = option(&mut words, "--count", "1000000").parse().unwrap_or(0);
    let piece: u64 = option(&mut words, "--piece", "262144").parse().unwrap_or(0);
    let journal = option(&mut words, "--journal", "wal");
    segments::IN_LIST.store(option(&mut words, "--segments", "tree") == "list", Ordering::Relaxed);
    let text = |word: &OsString| word.to_string_lossy().into_owned();
    let number = |word: &OsString| text(word).parse::<u64>().unwrap_or(0);
    let command = words.first().map(text).unwrap_or_default();
    let w = &words;
    let result = match (command.as_str(), words.len()) {
        ("replay", 1) => Ok(replay()),
        ("check", 2) => check(&w[1]),
        ("check-stream", 2) => check_stream(&w[1]),
        ("serve", 3) => Ok(http::serve(Path::new(&w[1]), &text(&w[2]), count)),
        ("fetch", 4) => fetch(&w[1], &text(&w[2]), &w[3], piece, &journal),
        ("store", 3) => store(&w[1], &w[2], piece as usize, &journal),
        ("load", 2) => opened(&w[1], &journal).map(|_| 0),
        ("ask", 4) => ask(&w[1], &w[2], &w[3]),
        ("ranges", 6) => http::request_ranges(&text(&w[1]), w[2].as_bytes(), number(&w[3]), number(&w[4]), number(&w[5]))
            .map(|requests| println!("{requests}"))
            .map_or_else(|why| Err(fault(why, 3)), |()| Ok(0)),
        _ => {
            eprintln!("{USAGE}");
            Err(2)
        }
    };
    std::process::exit(result.unwrap_or_else(|status| status).into());
}
