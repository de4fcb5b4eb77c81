//! Scripts of publications, offers, deliveries and queries over 1 to 16 nodes, and their transcripts.

use crate::feed::*;
use crate::names::Name;
use crate::query::{answer, write_answer, Query};
use std::collections::HashMap;
use std::io::Write;

enum What {
    Offer(Name),
    Deliver(Name, u64, u64),
}

enum Event {
    Publish(Name, Vec<u8>),
    Do(u64, What),
    Lose(u64, Name),
    Restart(u64),
    Stop(u64, What, bool),
    Report(u64, Vec<u8>),
    Ask(u64, Vec<u8>, Vec<u8>),
}

fn number(word: &[u8]) -> Option<u64> {
    if word.is_empty() || word.len() > 20 || !word.iter().all(u8::is_ascii_digit) {
        return None;
    }
    std::str::from_utf8(word).ok()?.parse().ok()
}

fn unescape(text: &[u8]) -> Option<Vec<u8>> {
    let mut out = Vec::with_capacity(text.len());
    let mut rest = text;
    while let Some(at) = memchr::memchr(b'\\', rest) {
        out.extend_from_slice(&rest[..at]);
        rest = &rest[at + 1..];
        let (&kind, tail) = rest.split_first()?;
        rest = tail;
        out.push(match kind {
            b't' => b'\t',
            b'n' => b'\n',
            b'r' => b'\r',
            b'\\' => b'\\',
            b'x' => {
                let pair = rest.get(..2)?;
                rest = &rest[2..];
                let high = (pair[0] as char).to_digit(16)?;
                let low = (pair[1] as char).to_digit(16)?;
                (high * 16 + low) as u8
            }
            _ => return None,
        });
    }
    out.extend_from_slice(rest);
    Some(out)
}

/// Cuts off the next word and its space. Returns `None` if the line has ended.
fn cut<'a>(rest: &mut Option<&'a [u8]>) -> Option<&'a [u8]> {
    let text = (*rest)?;
    match memchr::memchr(b' ', text) {
        Some(at) => {
            *rest = Some(&text[at + 1..]);
            Some(&text[..at])
        }
        None => {
            *rest = None;
            Some(text)
        }
    }
}

fn words_of(rest: Option<&[u8]>) -> Vec<&[u8]> {
    rest.map_or(Vec::new(), |text| text.split(|&b| b == b' ').collect())
}

const WORDS: &str = "wrong words";
const NUMBER: &str = "bad number";
const NAME: &str = "bad name";
const TEXT: &str = "bad text";

fn what_of(words: &[&[u8]]) -> Result<What, &'static str> {
    if words.len() == 2 {
        return Ok(What::Offer(Name::parse(words[1]).map_err(|_| NAME)?));
    }
    let first = number(words[2]);
    let len = number(words[3]);
    let (Some(first), Some(len)) = (first, len) else {
        return Err(NUMBER);
    };
    Ok(What::Deliver(Name::parse(words[1]).map_err(|_| NAME)?, first, len))
}

fn read_line(line: &[u8]) -> Result<Event, &'static str> {
    let mut rest = Some(line);
    let command = cut(&mut rest).unwrap_or(b"");
    match command {
        b"publish" => {
            let name = cut(&mut rest).filter(|w| !w.is_empty()).ok_or(WORDS)?;
            let name = Name::parse(name).map_err(|_| NAME)?;
            Ok(Event::Publish(name, unescape(rest.unwrap_or(b"")).ok_or(TEXT)?))
        }
        b"ask" => {
            let node = cut(&mut rest).filter(|w| !w.is_empty()).ok_or(WORDS)?;
            let package = cut(&mut rest).filter(|w| !w.is_empty()).ok_or(WORDS)?;
            let node = number(node).ok_or(NUMBER)?;
            Ok(Event::Ask(node, package.to_vec(), rest.unwrap_or(b"").to_vec()))
        }
        b"offer" | b"deliver" | b"lose" | b"restart" | b"report" | b"stop-before" | b"stop-after" => {
            let mut words = words_of(rest);
            if words.iter().any(|w| w.is_empty()) {
                return Err(WORDS);
            }
            if command.starts_with(b"stop") {
                if words.len() < 2 {
                    return Err(WORDS);
                }
                let kind = words.remove(1);
                let wanted: usize = match kind {
                    b"offer" => 2,
                    b"deliver" => 4,
                    _ => return Err(WORDS),
                };
                if words.len() != wanted {
                    return Err(WORDS);
                }
                let node = number(words[0]).ok_or(NUMBER)?;
                return Ok(Event::Stop(node, what_of(&words)?, command == b"stop-after"));
            }
            let wanted = match command {
                b"restart" => 1,
                b"deliver" => 4,
                _ => 2,
            };
            if words.len() != wanted {
                return Err(WORDS);
            }
            let node = number(words[0]).ok_or(NUMBER)?;
            match command {
                b"restart" => Ok(Event::Restart(node)),
                b"report" => Ok(Event::Report(node, words[1].to_vec())),
                b"lose" => Ok(Event::Lose(node, Name::parse(words[1]).map_err(|_| NAME)?)),
                _ => Ok(Event::Do(node, what_of(&words)?)),
            }
        }
        _ => Err("unknown command"),
    }
}

fn read_script(script: &[u8]) -> Result<(usize, Vec<Event>), String> {
    let full = memchr::memchr_iter(b'\n', script).count();
    let count = full + usize::from(script.last().is_some_and(|&b| b != b'\n'));
    if script.len() > 16_777_216 || count > 100_000 {
        return Err("script too long".into());
    }
    let mut nodes = None;
    let mut events = Vec::new();
    let mut rest = script;
    for i in 0..count {
        let end = memchr::memchr(b'\n', rest).unwrap_or(rest.len());
        let line = &rest[..end];
        rest = rest.get(end + 1..).unwrap_or(b"");
        if line.is_empty() || line[0] == b'#' {
            continue;
        }
        let fault = |text: &str| format!("line {}: {}", i + 1, text);
        if nodes.is_none() {
            let mut words = Some(line);
            if cut(&mut words) != Some(b"nodes") {
                return Err(fault("nodes expected"));
            }
            let words = words_of(words);
            if words.len() != 1 || words[0].is_empty() {
                return Err(fault(WORDS));
            }
            let n = number(words[0]).filter(|n| (1..=16).contains(n)).ok_or_else(|| fault(NUMBER))?;
            nodes = Some(n as usize);
            continue;
        }
        events.push(read_line(line).map_err(fault)?);
    }
    match nodes {
        Some(n) => Ok((n, events)),
        None => Err(format!("line {}: nodes expected", count + 1)),
    }
}

fn run<W: Write>(nodes: usize, events: Vec<Event>, out: &mut W) -> std::io::Result<()> {
    let mut published: HashMap<Name, Vec<u8>> = HashMap::new();
    let mut feeds: Vec<Feed<NoKeep>> = (0..nodes).map(|_| Feed::new(NoKeep)).collect();
    let place = |node: u64| (1..=nodes as u64).contains(&node).then(|| node as usize - 1);
    for event in events {
        match event {
            Event::Publish(name, text) => match published.get(&name) {
                Some(old) if *old != text => writeln!(out, "refused Republished")?,
                Some(_) => writeln!(out, "published")?,
                None => {
                    published.insert(name, text);
                    writeln!(out, "published")?
                }
            },
            Event::Do(node, what) => {
                let Some(n) = place(node) else {
                    writeln!(out, "refused NoNode")?;
                    continue;
                };
                match act(&published, &mut feeds[n], &what, true) {
                    Ok(Some(reply)) => writeln!(out, "{reply}")?,
                    Ok(None) => {}
                    Err(why) => writeln!(out, "refused {why}")?,
                }
            }
            Event::Stop(node, what, after) => {
                let Some(n) = place(node) else {
                    writeln!(out, "refused NoNode")?;
                    continue;
                };
                match act(&published, &mut feeds[n], &what, after) {
                    Ok(_) => {
                        feeds[n].restart();
                        writeln!(out, "stopped")?
                    }
                    Err(why) => writeln!(out, "refused {why}")?,
                }
            }
            Event::Lose(node, name) => match place(node) {
                None => writeln!(out, "refused NoNode")?,
                Some(_) if !published.contains_key(&name) => writeln!(out, "refused Unpublished")?,
                Some(_) => writeln!(out, "nothing")?,
            },
            Event::Restart(node) => match place(node) {
                None => writeln!(out, "refused NoNode")?,
                Some(n) => {
                    feeds[n].restart();
                    writeln!(out, "restarted")?
                }
            },
            Event::Report(node, package) => match place(node) {
                None => writeln!(out, "refused NoNode")?,
                Some(n) => match feeds[n].report(&package) {
                    None => writeln!(out, "none")?,
                    Some((name, _)) => {
                        out.write_all(b"active ")?;
                        out.write_all(&name.text)?;
                        out.write_all(b"\n")?;
                    }
                },
            },
            Event::Ask(node, package, query) => {
                let Some(n) = place(node) else {
                    writeln!(out, "refused NoNode")?;
                    continue;
                };
                match Query::read(&query) {
                    Err(fault) => writeln!(out, "refused {fault:?}")?,
                    Ok(query) => match feeds[n].report(&package) {
                        None => writeln!(out, "refused NoRelease")?,
                        Some((name, holdings)) => {
                            let hits = answer(holdings, &query);
                            write_answer(out, &name.text, holdings, &hits)?;
                        }
                    },
                }
            }
        }
    }
    Ok(())
}

fn act(
    published: &HashMap<Name, Vec<u8>>,
    feed: &mut Feed<NoKeep>,
    what: &What,
    go: bool,
) -> Result<Option<Reply>, &'static str> {
    match what {
        What::Offer(name) => {
            let text = published.get(name).ok_or("Unpublished")?;
            Ok(go.then(|| feed.offered(name, text.len() as u64)))
        }
        What::Deliver(name, first, len) => {
            let text = published.get(name).ok_or("Unpublished")?;
            let size = text.len() as u64;
            match first.checked_add(*len) {
                Some(end) if end <= size => {
                    let bytes = &text[*first as usize..end as usize];
                    Ok(go.then(|| feed.piece(name, *first, Some(size), bytes)))
                }
                _ => Err("NoSlice"),
            }
        }
    }
}

pub fn replay(script: &[u8]) -> u8 {
    match read_script(script) {
        Err(fault) => {
            eprintln!("kbfeed: {fault}");
            1
        }
        Ok((nodes, events)) => {
            let stdout = std::io::stdout().lock();
            let mut out = std::io::BufWriter::with_capacity(1 << 16, stdout);
            match run(nodes, events, &mut out).and_then(|_| out.flush()) {
                Ok(()) => 0,
                Err(_) => 3,
            }
        }
    }
}
