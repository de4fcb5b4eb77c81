#!/usr/bin/env python3
"""Stores a file in pieces by Python's sqlite3, with a synced transaction for each, or reads the pieces of a database.

store.py DB FILE PIECE JOURNAL
store.py --load DB"""
import os
import sqlite3
import sys

TABLES = """
BEGIN;
CREATE TABLE feed_layout (version INTEGER PRIMARY KEY) STRICT;
CREATE TABLE feed_release (
  name TEXT NOT NULL PRIMARY KEY, package TEXT NOT NULL, day INTEGER NOT NULL, size INTEGER NOT NULL,
  state INTEGER NOT NULL, CHECK (size >= 0), CHECK (state BETWEEN 0 AND 2)
) STRICT;
CREATE TABLE feed_piece (
  name TEXT NOT NULL REFERENCES feed_release (name) ON DELETE CASCADE, place INTEGER NOT NULL,
  bytes BLOB NOT NULL, PRIMARY KEY (name, place), CHECK (place >= 0)
) STRICT;
INSERT INTO feed_layout VALUES (1);
COMMIT;
"""
# The day of the benchmark's lists, 2024-01-01, as a number of days since 1970-01-01.
DAY = 19_723


def store(db, path, piece, journal):
    name, size = os.path.basename(path), os.path.getsize(path)
    connection = sqlite3.connect(db, isolation_level=None)
    connection.execute(f"PRAGMA journal_mode = {journal}")
    connection.execute("PRAGMA synchronous = FULL")
    connection.execute("PRAGMA foreign_keys = ON")
    connection.executescript(TABLES)
    connection.execute("INSERT INTO feed_release VALUES (?, ?, ?, ?, 0)", (name, name[:-15], DAY, size))
    with open(path, "rb") as file:
        for first in range(0, size, piece):
            connection.execute("BEGIN IMMEDIATE")
            connection.execute("INSERT INTO feed_piece VALUES (?, ?, ?)", (name, first, file.read(piece)))
            if first + piece >= size:
                connection.execute("UPDATE feed_release SET state = 2 WHERE name = ?", (name,))
                connection.execute("DELETE FROM feed_release WHERE package = ? AND day < ?", (name[:-15], DAY))
            connection.execute("COMMIT")
    connection.close()


def load(db):
    """Reads all pieces into memory, in order."""
    pieces = sqlite3.connect(db).execute("SELECT bytes FROM feed_piece ORDER BY name, place").fetchall()
    print(sum(len(piece) for piece, in pieces))


if __name__ == "__main__":
    if sys.argv[1] == "--load":
        load(sys.argv[2])
    else:
        store(sys.argv[1], sys.argv[2], int(sys.argv[3]), sys.argv[4])
