//! OpenURL queries for serials, the matching rows with their grades, and the text of an answer.

use crate::kbart::*;
use crate::names::{query_range, trim};
use std::io::Write;

#[derive(Debug, Clone, Copy)]
pub enum QueryFault {
    TooLong,
    Version,
    OtherFormat,
    NoIssn,
}

pub struct Query {
    pub issns: Vec<Issn>,
    pub days: Option<(i32, i32)>,
    pub volume: Option<u32>,
}

fn hex(b: u8) -> Option<u8> {
    (b as char).to_digit(16).map(|d| d as u8)
}

fn decode(text: &[u8]) -> Vec<u8> {
    let mut out = Vec::with_capacity(text.len());
    let mut i = 0;
    while i < text.len() {
        match text[i] {
            b'+' => out.push(b' '),
            b'%' if i + 2 < text.len() => match (hex(text[i + 1]), hex(text[i + 2])) {
                (Some(a), Some(b)) => {
                    out.push(a * 16 + b);
                    i += 2;
                }
                _ => out.push(b'%'),
            },
            b => out.push(b),
        }
        i += 1;
    }
    out
}

impl Query {
    pub fn read(text: &[u8]) -> Result<Query, QueryFault> {
        if text.len() > 4096 {
            return Err(QueryFault::TooLong);
        }
        let mut query = Query { issns: Vec::new(), days: None, volume: None };
        let (mut version, mut format) = (false, false);
        for pair in text.split(|&b| b == b'&').filter(|p| !p.is_empty()) {
            let (key, value) = match pair.iter().position(|&b| b == b'=') {
                Some(at) => (decode(&pair[..at]), decode(&pair[at + 1..])),
                None => (decode(pair), Vec::new()),
            };
            match key.as_slice() {
                b"url_ver" | b"ctx_ver" => version |= !value.is_empty() && value != b"Z39.88-2004",
                b"rft_val_fmt" => format |= !value.is_empty() && value != b"info:ofi/fmt:kev:mtx:journal",
                b"rft.issn" | b"rft.eissn" => query.issns.extend(issn(&value)),
                b"rft_id" => {
                    if value.len() >= 9 && value[..9].eq_ignore_ascii_case(b"urn:ISSN:") {
                        query.issns.extend(issn(&value[9..]));
                    }
                }
                b"rft.date" if query.days.is_none() => query.days = query_range(trim(&value)),
                b"rft.volume" if query.volume.is_none() => query.volume = volume(&value),
                _ => {}
            }
        }
        if version {
            return Err(QueryFault::Version);
        }
        if format {
            return Err(QueryFault::OtherFormat);
        }
        if query.issns.is_empty() {
            return Err(QueryFault::NoIssn);
        }
        query.issns.sort_unstable();
        query.issns.dedup();
        Ok(query)
    }
}

pub fn grade(row: &Row, query: &Query) -> Option<&'static str> {
    let mut tested = false;
    let mut inside = true;
    if let Some((from, to)) = query.days {
        if row.first_day != NO_DAY || row.last_day != NO_DAY {
            tested = true;
            let first = row.first_day;
            let last = if row.last_day == NO_DAY { i32::MAX } else { row.last_day };
            if from > last || to < first {
                return None;
            }
            inside = from >= first && to <= last;
        }
    }
    if let Some(v) = query.volume {
        if row.first_volume != NO_VOLUME || row.last_volume != NO_VOLUME {
            tested = true;
            if row.first_volume != NO_VOLUME && v < row.first_volume {
                return None;
            }
            // An absent last volume is u32::MAX, so the coverage is open.
            if v > row.last_volume {
                return None;
            }
        }
    }
    Some(match (tested, inside) {
        (false, _) => "untested",
        (true, false) => "overlap",
        (true, true) => "inside",
    })
}

/// Returns the places of the matching rows with their grades, in the order of the file.
pub fn answer(holdings: &Holdings, query: &Query) -> Vec<(u32, &'static str)> {
    let mut places: Vec<u32> = Vec::new();
    for &wanted in &query.issns {
        places.extend(holdings.with_issn(wanted).iter().map(|e| e.1));
    }
    if query.issns.len() > 1 {
        places.sort_unstable();
        places.dedup();
    }
    let hit = |&place: &u32| grade(&holdings.rows[place as usize], query).map(|g| (place, g));
    places.iter().filter_map(hit).collect()
}

pub fn write_answer<W: Write>(out: &mut W, name: &[u8], holdings: &Holdings, hits: &[(u32, &str)]) -> std::io::Result<()> {
    out.write_all(b"release ")?;
    out.write_all(name)?;
    writeln!(out, " hits {}", hits.len())?;
    for &(place, grade) in hits {
        let row = &holdings.rows[place as usize];
        write!(out, "{}\t{}", row.number, grade)?;
        for text in holdings.texts(row) {
            out.write_all(b"\t")?;
            out.write_all(text)?;
        }
        out.write_all(b"\n")?;
    }
    Ok(())
}
