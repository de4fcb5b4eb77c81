//! The calls of stock SQLite that the store needs, and the store over them.

use crate::feed::{Change, Keep, Part, Release, State};
use crate::names::Name;
use std::collections::BTreeMap;
use std::ffi::{c_char, c_int, c_void, CStr, CString};
use std::ptr::{null, null_mut};

#[link(name = "sqlite3")]
extern "C" {
    fn sqlite3_open_v2(name: *const c_char, db: *mut *mut c_void, flags: c_int, vfs: *const c_char) -> c_int;
    fn sqlite3_close(db: *mut c_void) -> c_int;
    fn sqlite3_errmsg(db: *mut c_void) -> *const c_char;
    fn sqlite3_exec(db: *mut c_void, sql: *const c_char, f: *const c_void, a: *mut c_void, e: *mut c_void) -> c_int;
    fn sqlite3_prepare_v2(db: *mut c_void, sql: *const c_char, n: c_int, s: *mut *mut c_void, t: *mut c_void) -> c_int;
    fn sqlite3_bind_int64(s: *mut c_void, i: c_int, v: i64) -> c_int;
    fn sqlite3_bind_text(s: *mut c_void, i: c_int, p: *const u8, n: c_int, d: *const c_void) -> c_int;
    fn sqlite3_bind_blob(s: *mut c_void, i: c_int, p: *const u8, n: c_int, d: *const c_void) -> c_int;
    fn sqlite3_step(s: *mut c_void) -> c_int;
    fn sqlite3_reset(s: *mut c_void) -> c_int;
    fn sqlite3_finalize(s: *mut c_void) -> c_int;
    fn sqlite3_column_int64(s: *mut c_void, i: c_int) -> i64;
    fn sqlite3_column_blob(s: *mut c_void, i: c_int) -> *const u8;
    fn sqlite3_column_bytes(s: *mut c_void, i: c_int) -> c_int;
}

const READ_WRITE: c_int = 2;
const CREATE: c_int = 4;
const ROW: c_int = 100;
const DONE: c_int = 101;

pub struct Db(*mut c_void);

impl Drop for Db {
    fn drop(&mut self) {
        unsafe { sqlite3_close(self.0) };
    }
}

pub enum Value<'a> {
    Int(i64),
    Text(&'a [u8]),
    Blob(&'a [u8]),
}

pub struct Statement(*mut c_void, *mut c_void);

impl Drop for Statement {
    fn drop(&mut self) {
        unsafe { sqlite3_finalize(self.0) };
    }
}

impl Db {
    pub fn open(path: &[u8], make: bool) -> Result<Db, String> {
        let path = CString::new(path).map_err(|_| "path")?;
        let mut db = null_mut();
        let flags = if make { READ_WRITE | CREATE } else { READ_WRITE };
        let rc = unsafe { sqlite3_open_v2(path.as_ptr(), &mut db, flags, null()) };
        let db = Db(db);
        if rc == 0 {
            Ok(db)
        } else {
            Err(db.message())
        }
    }

    fn message(&self) -> String {
        unsafe { CStr::from_ptr(sqlite3_errmsg(self.0)) }.to_string_lossy().into_owned()
    }

    pub fn exec(&self, sql: &str) -> Result<(), String> {
        let sql = CString::new(sql).unwrap();
        match unsafe { sqlite3_exec(self.0, sql.as_ptr(), null(), null_mut(), null_mut()) } {
            0 => Ok(()),
            _ => Err(self.message()),
        }
    }

    pub fn prepare(&self, sql: &str) -> Result<Statement, String> {
        let sql = CString::new(sql).unwrap();
        let mut s = null_mut();
        match unsafe { sqlite3_prepare_v2(self.0, sql.as_ptr(), -1, &mut s, null_mut()) } {
            0 => Ok(Statement(s, self.0)),
            _ => Err(self.message()),
        }
    }
}

impl Statement {
    /// Resets the statement and binds all values, which have to live until it has run.
    pub fn bind(&self, values: &[Value]) -> Result<(), String> {
        unsafe { sqlite3_reset(self.0) };
        for (i, value) in values.iter().enumerate() {
            let at = i as c_int + 1;
            let rc = unsafe {
                match value {
                    Value::Int(v) => sqlite3_bind_int64(self.0, at, *v),
                    Value::Text(t) => sqlite3_bind_text(self.0, at, t.as_ptr(), t.len() as c_int, null()),
                    Value::Blob(t) => sqlite3_bind_blob(self.0, at, t.as_ptr(), t.len() as c_int, null()),
                }
            };
            if rc != 0 {
                return Err("bind".into());
            }
        }
        Ok(())
    }

    pub fn step(&self) -> Result<bool, String> {
        match unsafe { sqlite3_step(self.0) } {
            ROW => Ok(true),
            DONE => Ok(false),
            _ => Err(unsafe { CStr::from_ptr(sqlite3_errmsg(self.1)) }.to_string_lossy().into_owned()),
        }
    }

    pub fn run(&self, values: &[Value]) -> Result<(), String> {
        self.bind(values)?;
        while self.step()? {}
        unsafe { sqlite3_reset(self.0) };
        Ok(())
    }

    pub fn int(&self, column: usize) -> i64 {
        unsafe { sqlite3_column_int64(self.0, column as c_int) }
    }

    pub fn bytes(&self, column: usize) -> &[u8] {
        unsafe {
            let p = sqlite3_column_blob(self.0, column as c_int);
            let n = sqlite3_column_bytes(self.0, column as c_int) as usize;
            if n == 0 {
                &[]
            } else {
                std::slice::from_raw_parts(p, n)
            }
        }
    }
}

pub const LAYOUT: &str = "
CREATE TABLE feed_layout (version INTEGER PRIMARY KEY) STRICT;
CREATE TABLE feed_release (
  name TEXT NOT NULL PRIMARY KEY,
  package TEXT NOT NULL,
  day INTEGER NOT NULL,
  size INTEGER NOT NULL,
  state INTEGER NOT NULL,
  CHECK (size >= 0),
  CHECK (state BETWEEN 0 AND 2)
) STRICT;
CREATE TABLE feed_piece (
  name TEXT NOT NULL REFERENCES feed_release (name) ON DELETE CASCADE,
  place INTEGER NOT NULL,
  bytes BLOB NOT NULL,
  PRIMARY KEY (name, place),
  CHECK (place >= 0)
) STRICT;
INSERT INTO feed_layout VALUES (1);
";

pub struct SqlKeep {
    add: Statement,
    piece: Statement,
    state: Statement,
    purge: Statement,
    pub db: Db,
}

impl SqlKeep {
    /// Opens a store with a journal mode of SQLite. Each commit is synced in all of them.
    pub fn open(path: &[u8], journal: &str) -> Result<SqlKeep, String> {
        let db = Db::open(path, true)?;
        db.exec(&format!("PRAGMA journal_mode = {journal}; PRAGMA synchronous = FULL; PRAGMA foreign_keys = ON"))?;
        let there = db.prepare("SELECT count(*) FROM sqlite_schema WHERE name = 'feed_layout'")?;
        there.step()?;
        let is_there = there.int(0) == 1;
        drop(there);
        if !is_there {
            db.exec(&format!("BEGIN; {LAYOUT} COMMIT"))?;
        }
        let state = db.prepare("UPDATE feed_release SET state = ?2 WHERE name = ?1")?;
        Ok(SqlKeep {
            add: db.prepare("INSERT INTO feed_release VALUES (?1, ?2, ?3, ?4, ?5)")?,
            piece: db.prepare("INSERT INTO feed_piece VALUES (?1, ?2, ?3)")?,
            state,
            purge: db.prepare("DELETE FROM feed_release WHERE package = ?1 AND day < ?2")?,
            db,
        })
    }

    pub fn load(&self) -> Result<BTreeMap<Name, Release>, String> {
        let mut all: BTreeMap<Name, Release> = BTreeMap::new();
        let releases = self.db.prepare("SELECT name, package, day, size, state FROM feed_release ORDER BY name")?;
        while releases.step()? {
            let name = Name::parse(releases.bytes(0)).map_err(|_| "name")?;
            if name.package() != releases.bytes(1) || i64::from(name.day) != releases.int(2) {
                return Err("package or day".into());
            }
            let state = match releases.int(4) {
                0 => State::Staged,
                1 => State::Broken,
                _ => State::Active,
            };
            all.insert(name, Release::new(releases.int(3) as u64, state));
        }
        let pieces = self.db.prepare("SELECT name, place, bytes FROM feed_piece ORDER BY name, place")?;
        while pieces.step()? {
            let name = Name::parse(pieces.bytes(0)).map_err(|_| "name")?;
            let release = all.get_mut(&name).ok_or("piece of no release")?;
            release.segments.insert(pieces.int(1) as u64, pieces.bytes(2).to_vec());
        }
        Ok(all)
    }

    fn insert(&self, name: &Name, parts: &[Part]) -> Result<(), String> {
        for (place, bytes) in parts {
            self.piece.run(&[Value::Text(&name.text), Value::Int(*place as i64), Value::Blob(bytes)])?;
        }
        Ok(())
    }

    fn change(&self, change: &Change) -> Result<(), String> {
        match change {
            Change::Add { name, size, state } => {
                let state = if *state == State::Broken { 1 } else { 0 };
                self.add.run(&[
                    Value::Text(&name.text),
                    Value::Text(name.package()),
                    Value::Int(name.day.into()),
                    Value::Int(*size as i64),
                    Value::Int(state),
                ])
            }
            Change::Pieces { name, parts } => self.insert(name, parts),
            Change::Break { name, parts } => {
                self.insert(name, parts)?;
                self.state.run(&[Value::Text(&name.text), Value::Int(1)])
            }
            Change::Activate { name, parts } => {
                self.insert(name, parts)?;
                self.state.run(&[Value::Text(&name.text), Value::Int(2)])?;
                self.purge.run(&[Value::Text(name.package()), Value::Int(name.day.into())])
            }
        }
    }
}

impl Keep for SqlKeep {
    fn commit(&mut self, change: &Change) -> Result<(), String> {
        self.db.exec("BEGIN IMMEDIATE")?;
        match self.change(change).and_then(|_| self.db.exec("COMMIT")) {
            Ok(()) => Ok(()),
            Err(cause) => {
                let _ = self.db.exec("ROLLBACK");
                Err(cause)
            }
        }
    }
}
