#!/usr/bin/env python3
"""Asks a node what real sources ask, and compares the hits with those that are wanted of each query.

node_sources.py list TABLE
node_sources.py ask TABLE ADDR

TABLE is that of openurl_sources.py. `list` prints the rows of a holdings list, one for each identifier of TABLE: of an
ISSN from 1996 to 2004 and the volumes 1 to 12, and of an ISBN without a date. `ask` sends each query to a node with
that list, as a GET and as a form, and prints each reply that differs, and then the counts. What is wanted follows from
the columns of TABLE: the hits with their grades, or the reason why nothing is looked up."""
import re
import socket
import sys

from openurl_sources import wanted_of

FIRST, LAST, VOLUMES = "1996-01-01", "2004-12-31", range(1, 13)
FORM_LIMIT = 8_192


def read_rows(table):
    with open(table, encoding="utf-8") as file:
        return [line.rstrip("\n").split("\t") for line in file][1:]


def identifiers_of(rows):
    return sorted({name for row in rows if row[4] != "none" for name in row[4].split(",")})


def is_serial(identifier):
    return "-" in identifier


def print_list(rows):
    for name in identifiers_of(rows):
        serial = f"T\t{name}\t\t1996\t1\t2004\t12\thttp://a.example/{name}\tserial"
        book = f"T\t{name}\t\t\t\t\t\thttp://a.example/{name}\tmonograph"
        print(serial if is_serial(name) else book)


# The grade of a row of a serial by a date and a volume, or none if it does not match.
def grade_of(date, volume):
    first, last = date + FIRST[len(date):], date + LAST[len(date):]
    if date and (last < FIRST or first > LAST):
        return None
    if volume and int(volume) not in VOLUMES:
        return None
    if date:
        return "inside" if FIRST <= first and last <= LAST else "overlap"
    return "inside" if volume else "untested"


def wanted_hits(wanted):
    grades = {name: grade_of(wanted["date"], wanted["volume"]) if is_serial(name) else "untested"
              for name in wanted["identifiers"].split(",") if name}
    return sorted((name, grade) for name, grade in grades.items() if grade)


# Whether a reader gets a page for a query without identifiers: its citation has a DOI, a PMID or a title.
def is_cited(query, wanted):
    return bool(wanted["doi"] or wanted["pmid"] or re.search(r"(?i)title=[^&]", query))


def wanted_reply(row):
    wanted = wanted_of(row)
    refused = wanted["refused"]
    if not refused:
        return 200, wanted_hits(wanted)
    if refused != "TooMany" and is_cited(row[3], wanted):
        return 200, "nothing to look up: " + refused
    return 400, refused


def sent(address, request):
    host, port = address.rsplit(":", 1)
    with socket.create_connection((host, int(port)), timeout=60) as connection:
        connection.sendall(request)
        return b"".join(iter(lambda: connection.recv(65_536), b""))


def reply_of(address, request):
    head, body = sent(address, request).split(b"\r\n\r\n", 1)
    lines = body.decode().splitlines()
    status = int(head.split(b" ")[1])
    if status != 200 or not lines[0].startswith("release "):
        return status, lines[0]
    hits = [line.split("\t") for line in lines[1:]]
    return status, sorted((fields[3].rsplit("/", 1)[1], fields[1]) for fields in hits)


def get(query):
    return f"GET /resolve?{query} HTTP/1.1\r\nHost: a.example\r\nConnection: close\r\n\r\n".encode()


def form(query):
    return ("POST /resolve HTTP/1.1\r\nHost: a.example\r\nConnection: close\r\n"
            f"Content-Type: application/x-www-form-urlencoded\r\nContent-Length: {len(query)}\r\n\r\n{query}").encode()


def ask(rows, address):
    differing, forms = 0, 0
    for row in rows:
        requests = [("GET", get(row[3]))]
        if len(row[3]) <= FORM_LIMIT:
            forms += 1
            requests.append(("form", form(row[3])))
        for kind, request in requests:
            got, wanted = reply_of(address, request), wanted_reply(row)
            if got != wanted:
                differing += 1
                print(row[0], kind, wanted, got)
    print(f"{len(rows)} queries, {forms} forms, {differing} not as wanted")


def main():
    command, table, *address = sys.argv[1:]
    rows = read_rows(table)
    if command == "list":
        print_list(rows)
    else:
        ask(rows, address[0])


if __name__ == "__main__":
    main()
