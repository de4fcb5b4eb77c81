//! A KBART file of serials, parsed with the `csv` crate: labels, ISSNs, dates, volumes, and why a record is skipped.

use crate::names::{date_range, trim};
use std::io::Read;

pub const FILE_LIMIT: u64 = 268_435_456;

pub const LABELS: [&str; 13] = [
    "publication_title",
    "print_identifier",
    "online_identifier",
    "date_first_issue_online",
    "num_first_vol_online",
    "date_last_issue_online",
    "num_last_vol_online",
    "title_url",
    "title_id",
    "embargo_info",
    "coverage_depth",
    "publication_type",
    "access_type",
];

#[derive(Clone, Copy, PartialEq, Eq, Debug)]
pub enum Bad {
    NotUtf8,
    TwoMarks,
    NoHeader,
    MissingLabel(u8),
    LabelTwice(u8),
}

impl std::fmt::Display for Bad {
    fn fmt(&self, f: &mut std::fmt::Formatter) -> std::fmt::Result {
        match self {
            Bad::NotUtf8 => f.write_str("NotUtf8"),
            Bad::TwoMarks => f.write_str("TwoMarks"),
            Bad::NoHeader => f.write_str("NoHeader"),
            Bad::MissingLabel(n) => write!(f, "MissingLabel {}", LABELS[*n as usize]),
            Bad::LabelTwice(n) => write!(f, "LabelTwice {}", LABELS[*n as usize]),
        }
    }
}

#[derive(Clone, Copy, PartialEq, Eq, Debug)]
pub enum Reason {
    OtherType,
    NoIssn,
    BadDate,
    Reversed,
}

impl Reason {
    pub fn text(self) -> &'static str {
        match self {
            Reason::OtherType => "OtherType",
            Reason::NoIssn => "NoIssn",
            Reason::BadDate => "BadDate",
            Reason::Reversed => "Reversed",
        }
    }
}

/// The seven digits of an ISSN as a number. The check character follows from them.
pub type Issn = u32;
pub const NO_ISSN: Issn = u32::MAX;
pub const NO_VOLUME: u32 = u32::MAX;
pub const NO_DAY: i32 = i32::MIN;

pub fn issn(text: &[u8]) -> Option<Issn> {
    let t = trim(text);
    let (head, tail) = match t.len() {
        8 => (&t[..4], &t[4..]),
        9 if t[4] == b'-' => (&t[..4], &t[5..]),
        _ => return None,
    };
    let mut sum = 0;
    let mut value = 0;
    let mut weight = 8;
    for &b in head.iter().chain(&tail[..3]) {
        if !b.is_ascii_digit() {
            return None;
        }
        let d = u32::from(b - b'0');
        sum += d * weight;
        weight -= 1;
        value = value * 10 + d;
    }
    sum += match tail[3] {
        b @ b'0'..=b'9' => u32::from(b - b'0'),
        b'X' | b'x' => 10,
        _ => return None,
    };
    (sum % 11 == 0).then_some(value)
}

pub fn volume(text: &[u8]) -> Option<u32> {
    let t = trim(text);
    if t.is_empty() || t.len() > 9 {
        return None;
    }
    let mut n = 0;
    for &b in t {
        if !b.is_ascii_digit() {
            return None;
        }
        n = n * 10 + u32::from(b - b'0');
    }
    Some(n)
}

/// The labels of the kept texts: title, URL, title id, depth, embargo, access.
const KEPT: [usize; 6] = [0, 7, 8, 10, 9, 12];

#[derive(Clone, Copy)]
pub struct Row {
    pub number: u32,
    pub print: Issn,
    pub online: Issn,
    pub first_day: i32,
    pub last_day: i32,
    pub first_volume: u32,
    pub last_volume: u32,
    start: u32,
    ends: [u32; 6],
}

pub struct Holdings {
    texts: Vec<u8>,
    pub rows: Vec<Row>,
    pub aside: Vec<(u32, Reason)>,
    /// The ISSNs with the places of their rows, sorted.
    pub index: Vec<(Issn, u32)>,
}

impl Holdings {
    /// The kept texts of a row: title, URL, title id, depth, embargo, access.
    pub fn texts<'a>(&'a self, row: &Row) -> [&'a [u8]; 6] {
        let mut from = row.start as usize;
        row.ends.map(|end| {
            let text = &self.texts[from..end as usize];
            from = end as usize;
            text
        })
    }

    pub fn build_index(&mut self) {
        let mut index = Vec::with_capacity(self.rows.len() * 2);
        for (i, row) in self.rows.iter().enumerate() {
            if row.print != NO_ISSN {
                index.push((row.print, i as u32));
            }
            if row.online != NO_ISSN && row.online != row.print {
                index.push((row.online, i as u32));
            }
        }
        index.sort_unstable();
        self.index = index;
    }

    pub fn with_issn(&self, wanted: Issn) -> &[(Issn, u32)] {
        let from = self.index.partition_point(|e| e.0 < wanted);
        let len = self.index[from..].partition_point(|e| e.0 == wanted);
        &self.index[from..from + len]
    }
}

/// Checks whether all bytes are UTF-8, however they are cut.
#[derive(Default)]
pub struct Utf8Check {
    tail: [u8; 4],
    len: usize,
    bad: bool,
}

impl Utf8Check {
    pub fn feed(&mut self, mut bytes: &[u8]) {
        while self.len > 0 && !bytes.is_empty() && !self.bad {
            self.tail[self.len] = bytes[0];
            self.len += 1;
            bytes = &bytes[1..];
            match std::str::from_utf8(&self.tail[..self.len]) {
                Ok(_) => self.len = 0,
                Err(e) if e.error_len().is_some() => self.bad = true,
                Err(_) => {}
            }
        }
        if self.bad || bytes.is_empty() {
            return;
        }
        if let Err(e) = std::str::from_utf8(bytes) {
            if e.error_len().is_some() {
                self.bad = true;
            } else {
                let rest = &bytes[e.valid_up_to()..];
                self.tail[..rest.len()].copy_from_slice(rest);
                self.len = rest.len();
            }
        }
    }

    pub fn finish(self) -> bool {
        !self.bad && self.len == 0
    }
}

pub fn reader<R: Read>(from: R) -> csv::Reader<R> {
    csv::ReaderBuilder::new()
        .delimiter(b'\t')
        .quoting(false)
        .flexible(true)
        .has_headers(false)
        .trim(csv::Trim::None)
        .buffer_capacity(1 << 16)
        .from_reader(from)
}

const MARK: &[u8] = b"\xEF\xBB\xBF";

/// The columns of the labels, by which each record becomes a row or is skipped.
pub struct Columns([usize; 13]);

impl Columns {
    pub fn read(header: &csv::ByteRecord) -> Result<Columns, Bad> {
        let mut at = [usize::MAX; 13];
        let mut twice = [false; 13];
        for (i, field) in header.iter().enumerate() {
            let field = trim(field);
            for (n, label) in LABELS.iter().enumerate() {
                if field.eq_ignore_ascii_case(label.as_bytes()) {
                    twice[n] |= at[n] != usize::MAX;
                    if at[n] == usize::MAX {
                        at[n] = i;
                    }
                    break;
                }
            }
        }
        if let Some(n) = (0..8).find(|&n| at[n] == usize::MAX) {
            return Err(Bad::MissingLabel(n as u8));
        }
        if let Some(n) = (0..13).find(|&n| twice[n]) {
            return Err(Bad::LabelTwice(n as u8));
        }
        Ok(Columns(at))
    }

    fn field<'a>(&self, record: &'a csv::ByteRecord, label: usize) -> &'a [u8] {
        record.get(self.0[label]).unwrap_or(b"")
    }

    pub fn row(&self, number: u32, record: &csv::ByteRecord) -> Result<Row, Reason> {
        let kind = trim(self.field(record, 11));
        if !kind.is_empty() && !kind.eq_ignore_ascii_case(b"serial") {
            return Err(Reason::OtherType);
        }
        let print = issn(self.field(record, 1));
        let online = issn(self.field(record, 2));
        if print.is_none() && online.is_none() {
            return Err(Reason::NoIssn);
        }
        let side = |label: usize| {
            let t = trim(self.field(record, label));
            if t.is_empty() {
                Ok(None)
            } else {
                date_range(t).map(Some).ok_or(Reason::BadDate)
            }
        };
        let first = side(3)?;
        let last = side(5)?;
        if let (Some(first), Some(last)) = (first, last) {
            if first.0 > last.1 {
                return Err(Reason::Reversed);
            }
        }
        let mut volumes = (volume(self.field(record, 4)), volume(self.field(record, 6)));
        if matches!(volumes, (Some(a), Some(b)) if a > b) {
            volumes = (None, None);
        }
        Ok(Row {
            number,
            print: print.unwrap_or(NO_ISSN),
            online: online.unwrap_or(NO_ISSN),
            first_day: first.map_or(NO_DAY, |d| d.0),
            last_day: last.map_or(NO_DAY, |d| d.1),
            first_volume: volumes.0.unwrap_or(NO_VOLUME),
            last_volume: volumes.1.unwrap_or(NO_VOLUME),
            start: 0,
            ends: [0; 6],
        })
    }
}

/// A reader over several slices that skips some bytes at the front.
struct Across<'a, I: Iterator<Item = &'a [u8]>> {
    rest: I,
    now: &'a [u8],
}

impl<'a, I: Iterator<Item = &'a [u8]>> Across<'a, I> {
    fn new(mut rest: I, mut skip: usize) -> Self {
        let mut now: &[u8] = &[];
        while skip > 0 {
            now = rest.next().unwrap_or(b"");
            let n = skip.min(now.len());
            now = &now[n..];
            skip -= n;
        }
        Across { rest, now }
    }
}

impl<'a, I: Iterator<Item = &'a [u8]>> Read for Across<'a, I> {
    fn read(&mut self, buf: &mut [u8]) -> std::io::Result<usize> {
        while self.now.is_empty() {
            match self.rest.next() {
                Some(next) => self.now = next,
                None => return Ok(0),
            }
        }
        let n = self.now.len().min(buf.len());
        buf[..n].copy_from_slice(&self.now[..n]);
        self.now = &self.now[n..];
        Ok(n)
    }
}

/// Parses a whole file in memory, in one or more slices.
pub fn read_parts<'a, I>(parts: I) -> Result<Holdings, Bad>
where
    I: Iterator<Item = &'a [u8]> + Clone,
{
    let mut check = Utf8Check::default();
    let mut front = Vec::with_capacity(6);
    for part in parts.clone() {
        if front.len() < 6 {
            front.extend_from_slice(&part[..part.len().min(6 - front.len())]);
        }
        check.feed(part);
    }
    if !check.finish() {
        return Err(Bad::NotUtf8);
    }
    let skip = if front.starts_with(MARK) { 3 } else { 0 };
    if front[skip..].starts_with(MARK) {
        return Err(Bad::TwoMarks);
    }
    let mut records = reader(Across::new(parts, skip));
    let mut record = csv::ByteRecord::new();
    if !records.read_byte_record(&mut record).unwrap() {
        return Err(Bad::NoHeader);
    }
    let columns = Columns::read(&record)?;
    let mut all = Holdings { texts: Vec::new(), rows: Vec::new(), aside: Vec::new(), index: Vec::new() };
    let mut number = 1;
    while records.read_byte_record(&mut record).unwrap() {
        number += 1;
        match columns.row(number, &record) {
            Err(reason) => all.aside.push((number, reason)),
            Ok(mut row) => {
                row.start = all.texts.len() as u32;
                for (end, &label) in row.ends.iter_mut().zip(&KEPT) {
                    all.texts.extend_from_slice(columns.field(&record, label));
                    *end = all.texts.len() as u32;
                }
                all.rows.push(row);
            }
        }
    }
    Ok(all)
}

/// A reader that passes bytes on, counts them, and checks whether they are UTF-8.
struct Watch<R> {
    inner: R,
    seen: u64,
    check: Utf8Check,
    front: Vec<u8>,
    at: usize,
}

impl<R: Read> Read for Watch<R> {
    fn read(&mut self, buf: &mut [u8]) -> std::io::Result<usize> {
        if self.at < self.front.len() {
            let n = buf.len().min(self.front.len() - self.at);
            buf[..n].copy_from_slice(&self.front[self.at..self.at + n]);
            self.at += n;
            return Ok(n);
        }
        let n = self.inner.read(buf)?;
        self.seen += n as u64;
        self.check.feed(&buf[..n]);
        Ok(n)
    }
}

pub enum Streamed {
    TooLong,
    Bad(Bad),
    Good { rows: u64, aside: Vec<(u32, Reason)> },
}

/// Checks a file in one pass, and keeps no row.
pub fn read_stream<R: Read>(mut inner: R) -> std::io::Result<Streamed> {
    let mut front = Vec::with_capacity(6);
    (&mut inner).take(6).read_to_end(&mut front)?;
    let mut check = Utf8Check::default();
    check.feed(&front);
    let at = if front.starts_with(MARK) { 3 } else { 0 };
    let two = front[at..].starts_with(MARK);
    let mut watch = Watch { inner, seen: front.len() as u64, check, front, at };
    if two {
        // No record is parsed, but the rest may be too long or not UTF-8, which decides first.
        std::io::copy(&mut (&mut watch).take(FILE_LIMIT + 1), &mut std::io::sink())?;
        return Ok(match watch.seen > FILE_LIMIT {
            true => Streamed::TooLong,
            false if watch.check.finish() => Streamed::Bad(Bad::TwoMarks),
            false => Streamed::Bad(Bad::NotUtf8),
        });
    }
    let mut records = reader(watch);
    let mut record = csv::ByteRecord::new();
    let mut header = Err(Bad::NoHeader);
    let mut rows = 0;
    let mut aside = Vec::new();
    let mut number = 0;
    while records.read_byte_record(&mut record).map_err(std::io::Error::from)? {
        number += 1;
        if number == 1 {
            header = Columns::read(&record);
        } else if let Ok(columns) = &header {
            match columns.row(number, &record) {
                Ok(_) => rows += 1,
                Err(reason) => aside.push((number, reason)),
            }
        }
        if records.get_ref().seen > FILE_LIMIT {
            return Ok(Streamed::TooLong);
        }
    }
    let watch = records.into_inner();
    if watch.seen > FILE_LIMIT {
        return Ok(Streamed::TooLong);
    }
    if !watch.check.finish() {
        return Ok(Streamed::Bad(Bad::NotUtf8));
    }
    Ok(match header {
        Err(bad) => Streamed::Bad(bad),
        Ok(_) => Streamed::Good { rows, aside },
    })
}
