//! A node: its releases, their pieces, and the switch to the latest complete and good release.

use crate::kbart::{self, Bad, Holdings, FILE_LIMIT};
use crate::names::Name;
use crate::segments::Segments;
use std::collections::BTreeMap;

pub const PIECE_LIMIT: usize = 1_048_576;
pub const RELEASE_LIMIT: usize = 256;

#[derive(Clone, Copy, PartialEq, Eq, Debug)]
pub enum State {
    Staged,
    Broken,
    Active,
}

pub struct Release {
    pub size: u64,
    pub state: State,
    pub kept: u64,
    pub segments: Segments,
}

impl Release {
    pub fn new(size: u64, state: State) -> Release {
        Release { size, state, kept: 0, segments: Segments::new() }
    }

    fn add(&mut self, parts: Vec<Part>) {
        for (first, bytes) in parts {
            self.segments.insert(first, bytes);
        }
    }

    fn parts(&self) -> impl Iterator<Item = &[u8]> + Clone {
        self.segments.all().map(|part| part.1)
    }
}

pub type Part = (u64, Vec<u8>);

/// A change of the store, as one transaction.
pub enum Change<'a> {
    Add { name: &'a Name, size: u64, state: State },
    Pieces { name: &'a Name, parts: &'a [Part] },
    Break { name: &'a Name, parts: &'a [Part] },
    Activate { name: &'a Name, parts: &'a [Part] },
}

pub trait Keep {
    fn commit(&mut self, change: &Change) -> Result<(), String>;
}

/// A store that keeps nothing: the feed has its records in memory.
pub struct NoKeep;

impl Keep for NoKeep {
    fn commit(&mut self, _: &Change) -> Result<(), String> {
        Ok(())
    }
}

pub enum Reply {
    Noted,
    Known,
    Stored(u64),
    Repeated,
    Activated,
    Broken(Bad),
    Older,
    TooLarge,
    WrongSize,
    Full,
    BadPiece,
    Unknown,
    Outside,
    Conflict,
    Device(String),
}

impl Reply {
    pub fn is_refusal(&self) -> bool {
        use Reply::*;
        matches!(self, TooLarge | WrongSize | Full | BadPiece | Unknown | Outside | Conflict | Device(_))
    }
}

impl std::fmt::Display for Reply {
    fn fmt(&self, f: &mut std::fmt::Formatter) -> std::fmt::Result {
        f.write_str(match self {
            Reply::Noted => "noted",
            Reply::Known => "known",
            Reply::Stored(n) => return write!(f, "stored missing {n}"),
            Reply::Repeated => "repeated",
            Reply::Activated => "activated",
            Reply::Broken(bad) => return write!(f, "broken {bad}"),
            Reply::Older => "older",
            Reply::TooLarge => "refused TooLarge",
            Reply::WrongSize => "refused WrongSize",
            Reply::Full => "refused Full",
            Reply::BadPiece => "refused BadPiece",
            Reply::Unknown => "refused Unknown",
            Reply::Outside => "refused Outside",
            Reply::Conflict => "refused Conflict",
            Reply::Device(cause) => return write!(f, "refused Device ({cause})"),
        })
    }
}

pub struct Feed<K> {
    pub keep: K,
    releases: BTreeMap<Name, Release>,
    active: BTreeMap<Vec<u8>, (Name, Holdings)>,
}

impl<K: Keep> Feed<K> {
    pub fn new(keep: K) -> Feed<K> {
        Feed { keep, releases: BTreeMap::new(), active: BTreeMap::new() }
    }

    /// Opens a feed over stored records: checks that they are a state of a feed, and parses the active files.
    pub fn open(keep: K, releases: BTreeMap<Name, Release>) -> Result<Feed<K>, &'static str> {
        let mut feed = Feed { keep, releases, active: BTreeMap::new() };
        feed.rebuild()?;
        Ok(feed)
    }

    pub fn restart(&mut self) {
        self.rebuild().expect("records of this feed");
    }

    fn rebuild(&mut self) -> Result<(), &'static str> {
        self.active.clear();
        if self.releases.len() > RELEASE_LIMIT {
            return Err("too many releases");
        }
        for (name, release) in &mut self.releases {
            let mut end = 0;
            release.kept = 0;
            for (first, bytes) in release.segments.all() {
                if first < end || bytes.is_empty() || bytes.len() > PIECE_LIMIT {
                    return Err("parts");
                }
                end = first + bytes.len() as u64;
                release.kept += bytes.len() as u64;
            }
            if end > release.size || release.size > FILE_LIMIT {
                return Err("size");
            }
            if (release.kept == release.size) != (release.state != State::Staged) {
                return Err("state");
            }
            match release.state {
                State::Staged => {}
                State::Broken => {
                    if kbart::read_parts(release.parts()).is_ok() {
                        return Err("good but broken");
                    }
                }
                State::Active => {
                    let mut holdings = kbart::read_parts(release.parts()).map_err(|_| "bad but active")?;
                    holdings.build_index();
                    if self.active.insert(name.package().to_vec(), (name.clone(), holdings)).is_some() {
                        return Err("two active");
                    }
                }
            }
        }
        for name in self.releases.keys() {
            if self.is_passed(name) {
                return Err("older than the active one");
            }
        }
        Ok(())
    }

    fn is_passed(&self, name: &Name) -> bool {
        self.active.get(name.package()).is_some_and(|(active, _)| active.day > name.day)
    }

    pub fn offered(&mut self, name: &Name, size: u64) -> Reply {
        if size > FILE_LIMIT {
            return Reply::TooLarge;
        }
        if self.is_passed(name) {
            return Reply::Older;
        }
        if let Some(release) = self.releases.get(name) {
            return if release.size == size { Reply::Known } else { Reply::WrongSize };
        }
        if self.releases.len() == RELEASE_LIMIT {
            return Reply::Full;
        }
        let state = if size == 0 { State::Broken } else { State::Staged };
        if let Err(cause) = self.keep.commit(&Change::Add { name, size, state }) {
            return Reply::Device(cause);
        }
        self.releases.insert(name.clone(), Release::new(size, state));
        if size == 0 {
            Reply::Broken(Bad::NoHeader)
        } else {
            Reply::Noted
        }
    }

    pub fn piece(&mut self, name: &Name, first: u64, total: Option<u64>, bytes: &[u8]) -> Reply {
        if bytes.is_empty() || bytes.len() > PIECE_LIMIT {
            return Reply::BadPiece;
        }
        if self.is_passed(name) {
            return Reply::Older;
        }
        let Some(release) = self.releases.get_mut(name) else {
            return Reply::Unknown;
        };
        if total.is_some_and(|t| t != release.size) {
            return Reply::WrongSize;
        }
        let end = match first.checked_add(bytes.len() as u64) {
            Some(end) if end <= release.size => end,
            _ => return Reply::Outside,
        };
        // Compares the bytes that are kept, and collects the parts that fill a gap.
        let mut parts: Vec<Part> = Vec::new();
        let mut at = first;
        for (place, kept) in release.segments.around(first, end) {
            let kept_end = place + kept.len() as u64;
            if kept_end <= at {
                continue;
            }
            if place > at {
                parts.push((at, bytes[(at - first) as usize..(place - first) as usize].to_vec()));
                at = place;
            }
            let to = kept_end.min(end);
            if kept[(at - place) as usize..(to - place) as usize] != bytes[(at - first) as usize..(to - first) as usize] {
                return Reply::Conflict;
            }
            at = to;
        }
        if at < end {
            parts.push((at, bytes[(at - first) as usize..].to_vec()));
        }
        if parts.is_empty() {
            return Reply::Repeated;
        }
        let new: u64 = parts.iter().map(|p| p.1.len() as u64).sum();
        let missing = release.size - release.kept - new;
        if missing > 0 {
            if let Err(cause) = self.keep.commit(&Change::Pieces { name, parts: &parts }) {
                return Reply::Device(cause);
            }
            release.kept += new;
            release.add(parts);
            return Reply::Stored(missing);
        }
        // The file is complete: it is parsed over the kept and the new parts, and then committed once.
        let parsed = if release.segments.is_empty() {
            kbart::read_parts(parts.iter().map(|p| p.1.as_slice()))
        } else {
            let mut order: Vec<(u64, &[u8])> = release.segments.all().collect();
            order.extend(parts.iter().map(|p| (p.0, p.1.as_slice())));
            order.sort_unstable_by_key(|p| p.0);
            kbart::read_parts(order.iter().map(|p| p.1))
        };
        match parsed {
            Err(bad) => {
                if let Err(cause) = self.keep.commit(&Change::Break { name, parts: &parts }) {
                    return Reply::Device(cause);
                }
                release.state = State::Broken;
                release.kept += new;
                release.add(parts);
                Reply::Broken(bad)
            }
            Ok(mut holdings) => {
                holdings.build_index();
                if let Err(cause) = self.keep.commit(&Change::Activate { name, parts: &parts }) {
                    return Reply::Device(cause);
                }
                release.state = State::Active;
                release.kept += new;
                release.add(parts);
                self.releases.retain(|n, _| n.package() != name.package() || n.day >= name.day);
                self.active.insert(name.package().to_vec(), (name.clone(), holdings));
                Reply::Activated
            }
        }
    }

    pub fn report(&self, package: &[u8]) -> Option<&(Name, Holdings)> {
        self.active.get(package)
    }

    /// Returns the first and the last place of the next range to request: the first missing ones, at most `max`.
    pub fn next_range(&self, name: &Name, max: u64) -> Option<(u64, u64)> {
        let release = self.releases.get(name)?;
        if release.kept == release.size || max == 0 {
            return None;
        }
        let mut at = 0;
        let mut to = release.size;
        for (place, bytes) in release.segments.all() {
            if place > at {
                to = place;
                break;
            }
            at = place + bytes.len() as u64;
        }
        Some((at, to.min(at.saturating_add(max)) - 1))
    }
}
