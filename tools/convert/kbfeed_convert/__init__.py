"""Converts a vendor's holdings list to a KBART list that kbfeed reads.

    source, sheet -> encoding -> form -> labels -> record, quick -> command
    bytes            text        records  columns  rows             files

`record` asks one module for each kind of value: `kinds`, `identifiers`, `dates`, `volumes`, `values`, and `coverage`
for statements of coverage, whose words are in `coverage.toml`. `quick` does the same for usual records. `mapping` and
`choosing` have what maps and profiles say, and `unused` looks at the columns that are left. `library` makes the files
of one library. `strict` has the rules of the proved reader, and mends nothing. `tables.toml` has all other words."""
