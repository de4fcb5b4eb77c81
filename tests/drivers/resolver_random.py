"""Compares the replies of the resolver with a plain model of them, over random lists, site files and requests.

resolver_random.py [--cases N] [--seed N]

The model is written from docs/formats/RESOLVER.md, KBART.md and OPENURL.md beside it, and docs/using/LIBRARIES.md
alone; the rules of lists and queries are in holdings.py. It goes through all rows of all lists for each request.
Each world has up to three packages with a few rows, a site file or none, and a day; it gets twenty requests. In some
worlds the lists have more rows of one ISSN than a query looks at, or as many, and some of these have long texts. The
site file has templates of articles, and requests have values about as long as a link takes. Compared are the status,
the address of a redirect, the whole text, the hits and `also` of JSON with most members, the links of a page and of a
reply of SFX, in their order, how many hits are left out, and which packages may have more. `test_http` gives the
replies."""
import argparse
import datetime
import html.parser
import ipaddress
import json
import random
import re
import subprocess
import sys
import urllib.parse
import xml.etree.ElementTree

sys.dont_write_bytecode = True
from holdings import (BOOK, EVER, Record, dated_grade_of, days_of, grade_of, lies_in, meet, months_before,  # noqa: E402
                      open_days, query_days_of, volume_of)

WORLD = 20
# Every so many worlds one has long lists. A query looks at ROWS rows that have one of its identifiers, in all lists
# together. A hit counts as one of ROWS others for each SIZE bytes of a text. A reply shows SHOWN hits at most, with
# fewer than BYTES bytes. A value in a link has VALUE bytes at most, and a link LINK.
LONG, ROWS, SIZE, SHOWN, BYTES, VALUE, LINK = 15, 5_000, 250, 1_000, 524_288, 1_000, 8_000
# How many equal rows a long list has, so that one or several are below, at and above the bound and their shares.
COUNTS = [ROWS, ROWS - 6, ROWS + 50, ROWS // 2, ROWS // 2 + 1, ROWS // 3, ROWS // 3 + 7, 900]
# The lengths of the long titles of a list. test_http takes lists of less than 1 MiB.
TITLES = [[SIZE - 1, SIZE, 3 * SIZE], [60_000] * 8, [430_000], [200_000, 210_000, 20], [300_000, 300_000]]
# Addresses of articles, and values of their names that are absent, at the bound, past it and too long together.
ARTICLES = ["https://a.example/{article}", "https://b.example/?a={article}&v={volume}&again={article}",
            "http://c.a.example/x/{title_id}?a={article}", "https://b.example/{article}{article}{article}",
            "https://b.example/{title}/{title_id}"]
VALUES = ["Bees", "..", "a b&c", "a" * VALUE, "a" * (VALUE + 1), "%" * VALUE, "é" * (VALUE // 2), "%" * 900]
LABELS = ["publication_title", "print_identifier", "online_identifier", "date_first_issue_online",
          "num_first_vol_online", "date_last_issue_online", "num_last_vol_online", "title_url", "title_id",
          "embargo_info", "coverage_depth", "access_type", "publication_type"]
ISSNS = ["2434-561X", "0317-8471", "1050-124X"]
ISBNS = ["9780306406157", "9781849302043"]
HOSTS = ["a.example", "b.example", "c.a.example"]
# Behind `//` of an address: what is a host, and what is none.
ODD_HOSTS = ["A.Example", "b.example:8080", "b.example:65536", "x@a.example", "a.example:80@c.example", "",
             "-a.example", "a_b.example", "1.2.3", "1.2.3.4", "1.2.3.04", "0x7f.1", "[::1]", "[0:0::1]:80", "[1:2]",
             "a.example\\"]
FIRSTS, LASTS = ["", "", "1990", "1995", "1998-03", "1999-12-31"], ["", "", "", "2001", "2004-02", "2024", "1996"]
VOLUMES = ["", "", "1", "5", "007", "12", "x"]
EMBARGOES = ["", "", "P1Y", "P12M", "P30D", "R10Y", "R1Y;P1Y", "P30D;R2Y", "12 months"]


def encoded(text):
    """Returns a text with each byte that is not a letter or a digit percent-encoded."""
    return "".join(chr(it) if chr(it).isascii() and chr(it).isalnum() else f"%{it:02X}" for it in text.encode())


def is_ip(kind, text):
    try:
        return bool(kind(text))
    except ValueError:
        return False


def host_of(url):
    """Returns the host of an address to which a page links, in lower case, or None if it is text."""
    found = re.fullmatch(r"(?i:https?)://([^/?#]*)[!-~]*", url)
    found = found and "\\" not in url and re.fullmatch(r"(\[[^\]]*\]|[^:@]*)(?::(\d*))?", found[1])
    if not found or int(found[2] or 0) > 65_535:
        return None
    host, labels = found[1].lower(), found[1].split(".")
    is_name = all(re.fullmatch(r"(?=.{1,63}$)[0-9A-Za-z](?:[-0-9A-Za-z]*[0-9A-Za-z])?", it) for it in labels)
    if is_name and re.match(r"[A-Za-z]", labels[-1]) or is_ip(ipaddress.IPv4Address, host):
        return host
    return host if re.fullmatch(r"\[.*\]", host) and is_ip(ipaddress.IPv6Address, host[1:-1]) else None


def shown_host(url):
    """Returns the host that a page shows for an address: an IPv6 address in its shortest form."""
    host = host_of(url) or ""
    return f"[{ipaddress.IPv6Address(host[1:-1]).compressed}]" if host.startswith("[") else host


class Row(Record):
    """A row of a list, or a record that is skipped."""

    def __init__(self, package, number, cells):
        super().__init__(cells)
        self.package, self.number, self.cells = package, number, cells


class Query:
    """What a query asks for, in the forms that this test writes."""

    def __init__(self, pairs):
        formats = {value.rpartition(":")[2] for key, value in pairs if key == "rft_val_fmt" and value}
        issns = {value for key, value in pairs if key in ("rft.issn", "rft.eissn") and value in ISSNS}
        isbns = {value for key, value in pairs if key == "rft.isbn" and value in ISBNS}
        versions = [value for key, value in pairs if key == "url_ver" and value]
        self.fault = None
        self.identifiers = issns | isbns
        if not self.identifiers:
            if any(it != "Z39.88-2004" for it in versions):
                self.fault = "Version"
            elif formats - {"journal", "book"}:
                self.fault = "OtherFormat"
            else:
                self.fault = "NoIsbn" if formats == {"book"} else "NoIssn"
        genre = next((value for key, value in pairs if key == "rft.genre" and value), "")
        self.is_book_first = bool(issns and isbns) and genre.lower() not in ("article", "journal")
        dates = [it for it in (query_days_of(value) for key, value in pairs if key == "rft.date") if it]
        volumes = [it for it in (volume_of(value) for key, value in pairs if key == "rft.volume") if it is not None]
        self.days, self.volume = dates[0] if dates else None, volumes[0] if volumes else None
        keys = {"article": "rft.atitle", "title": "rft.jtitle", "volume": "rft.volume"}
        self.parts = {name: dict(pairs).get(key, "") for name, key in keys.items()}
        self.is_cited = any(key in ("rft.jtitle", "rft.btitle", "rft.atitle") and value.strip() for key, value in pairs)


class Hit:
    """A row that a query finds, with its availability and its rank."""

    def __init__(self, row, grade, query, world, is_match):
        self.row, self.grade = row, grade
        self.is_first = query.is_book_first and row.kind == BOOK
        left = open_days(row.cells["embargo_info"], world.today)
        if query.days is None or not row.has_dates() or left is None:
            self.availability = "not compared"
        else:
            covered = row.coverage()
            days = (max(left[0], covered[0]), min(left[1], covered[1]))
            if days[0] <= days[1] and lies_in(query.days, days):
                self.availability = "available"
            else:
                self.availability = "partly" if days[0] <= days[1] and meet(query.days, days) else "embargoed"
        self.is_open = self.availability != "embargoed" and row.cells["coverage_depth"] != "abstracts"
        self.url = row.cells["title_url"]
        self.page = world.through_proxy(row, self.url) if host_of(self.url) else self.url
        self.article = ""
        is_whole_text = row.cells["coverage_depth"] in ("", "fulltext")
        if is_match and is_whole_text and self.availability in ("available", "not compared"):
            self.article = world.article_of(row, query)
        self.link = self.article or self.page
        self.is_link = bool(self.article) or host_of(self.url) is not None

    def size(self, world):
        """Returns the bytes of the texts of the hit, with room for the link to its page."""
        labels = ("publication_title", "title_id", "coverage_depth", "embargo_info", "access_type")
        texts = [self.row.package, name_of(self.row.package), self.article, *[self.row.cells[it] for it in labels]]
        prefix = world.prefix_for(self.row, self.url) if host_of(self.url) else ""
        page = len(prefix) + len(self.url.encode()) * (3 if prefix.endswith("qurl=") else 1)
        return sum(len(it.encode()) for it in texts) + page

    def rank(self, world):
        full = self.row.cells["coverage_depth"] == "fulltext"
        listed = [it.get("id") for it in world.packages]
        place = listed.index(self.row.package) if self.row.package in listed else len(listed)
        return (not self.is_first, ["available", "partly", "not compared", "embargoed"].index(self.availability),
                ["inside", "overlap", "untested"].index(self.grade), not full,
                not (full and self.row.cells["access_type"] == "F"), place)


def text_looks(cells):
    """Returns what the texts of a hit count as."""
    texts = ["publication_title", "title_url", "title_id", "coverage_depth", "embargo_info", "access_type"]
    return sum(len(cells[label].encode()) // SIZE for label in texts)


class Found:
    """What a search finds in a list, and whether that is all."""

    def __init__(self, package, hits, is_whole):
        self.package, self.hits, self.is_whole = package, hits, is_whole


def hits_of(found):
    return [hit for it in found for hit in it.hits]


class World:
    """Lists, a site file and a day."""

    def __init__(self, dice, is_long):
        self.dice, self.is_long = dice, is_long
        self.today = datetime.date(2024, 5, 17) + datetime.timedelta(days=dice.randrange(400))
        names = dice.sample(["Acme", "Basic_All", "Coast", "Delta"], dice.randint(1, 3))
        long = dice.sample(names, dice.randint(1, len(names))) if is_long else []
        self.lists = {name: self.random_list(name, name in long) for name in sorted(names)}
        self.packages, self.titles, self.proxy, self.except_hosts, self.redirects = [], [], "", [], False
        self.platforms = {}
        self.has_site = dice.random() < 0.7
        if self.has_site:
            self.random_site(names)

    def random_list(self, package, is_long):
        records = [self.random_record(number) for number in range(self.dice.randint(0, 12))]
        if is_long:
            at = self.dice.randint(0, len(records))
            records[at:at] = self.equal_records(self.dice.choice(COUNTS))
        return [Row(package, number, cells) for number, cells in enumerate(records, 2)]

    def random_record(self, number):
        pick = self.dice.choice
        kind = pick(["", "serial", "Serial", "monograph", "database"])
        known = ISBNS if kind == "monograph" else ISSNS
        return dict(zip(LABELS, [
            pick(["Acta", "Beta <b>", "Gamma & \"Delta\"", "Straße"]),
            pick([*known, known[0], ""]), pick([*known, "", "x"]),
            pick(FIRSTS), pick(VOLUMES), pick(LASTS), pick(VOLUMES),
            pick(["", "javascript:alert(1)", f"http://{pick(ODD_HOSTS)}/{number}"]
                 + [f"https://{host}/{number}?a=1&b=2" for host in HOSTS * 2]),
            f"id{number}", pick(EMBARGOES), pick(["", "fulltext", "fulltext", "abstracts"]),
            pick(["", "F", "P"]), kind]))

    def equal_records(self, count):
        """Returns so many records of one journal. Most of them are equal, and match every query or few dates. A few
        have long titles, at their front or among them."""
        journal = {"print_identifier": ISSNS[0], "online_identifier": "", "date_first_issue_online": "",
                   "date_last_issue_online": "", "publication_type": ""}
        most = dict.fromkeys(LABELS, "") | journal | self.dice.choice([
            {"title_url": "https://a.example/", "coverage_depth": "fulltext"},
            {"date_first_issue_online": "1950", "date_last_issue_online": "1951", "coverage_depth": "fulltext"}])
        others = [self.random_record("long") | journal for _ in range(2)]
        records = self.dice.choices([most, *others], [98, 1, 1], k=count)
        for length in self.dice.choice(TITLES):
            titled = self.random_record("titled") | journal | {"publication_title": "T" * length}
            records[self.dice.choice([0, self.dice.randrange(count)])] = titled
        return records

    def random_site(self, names):
        chance = self.dice.random
        self.redirects = chance() < 0.5
        if chance() < 0.4:
            self.proxy = self.dice.choice(["https://proxy.example/login?url=", "https://proxy.example/login?qurl="])
            self.except_hosts = self.dice.sample(["a.example", "b.example"], self.dice.randint(0, 1))
        for name in names:
            if chance() < 0.5:
                article = {"article": self.dice.choice(ARTICLES)} if chance() < 0.8 else {}
                self.packages.append({"id": name, **self.random_held(), **article})
        self.platforms = {it: self.dice.choice(ARTICLES) for it in ("a.example", "b.example") if chance() < 0.5}
        for name in names:
            for title in dict.fromkeys(row.cells["title_id"] for row in self.lists[name]):
                if title and chance() < 0.15:
                    self.titles.append({"package": name, "id": title, **self.random_held()})
        self.dice.shuffle(self.packages)

    def random_held(self):
        held = {}
        if self.dice.random() < 0.2:
            held["held"] = False
        first, last = self.dice.choice(["", "1996", "1999-06"]), self.dice.choice(["", "2003-12-31", "2010"])
        if self.dice.random() < 0.5:
            held |= {key: text for key, text in (("first", first), ("last", last)) if text}
        return held

    def site_text(self):
        lines = ["[library]", "name = \"L\"", f"redirect_sole_hit = {'true' if self.redirects else 'false'}"]
        if self.proxy:
            lines += ["[proxy]", f'prefix = "{self.proxy}"', f"except = {json.dumps(self.except_hosts)}"]
        for kind, tables in (("package", self.packages), ("title", self.titles)):
            for table in tables:
                lines += [f"[[{kind}]]", *[f"{key} = {json.dumps(value)}" for key, value in table.items()]]
        for host, article in self.platforms.items():
            lines += ["[[platform]]", f'host = "{host}"', f'article = "{article}"']
        return "\n".join(lines) + "\n"

    def list_text(self, package):
        records = [LABELS, *[list(it.cells.values()) for it in self.lists[package]]]
        return "".join("\t".join(it) + "\n" for it in records)

    def prefix_for(self, row, url):
        """Returns what precedes an address of a row: the prefix of the proxy if it needs that, or nothing."""
        host, is_free = host_of(url), row.cells["access_type"] == "F"
        if is_free or any(host == it or host.endswith(f".{it}") for it in self.except_hosts):
            return ""
        return self.proxy

    def through_proxy(self, row, url):
        """Returns the link to an address of a row, through the proxy if it needs that."""
        prefix = self.prefix_for(row, url)
        return prefix + (encoded(url) if prefix.endswith("qurl=") else url)

    def article_of(self, row, query):
        """Returns the link to the article of a query in a row, or an empty text."""
        table = next((it for it in self.packages if it["id"] == row.package), {})
        template = table.get("article") or self.platforms.get(host_of(row.cells["title_url"]))
        values = {**query.parts, "title_id": row.cells["title_id"]}
        values = {key: text for key, text in values.items() if len(text.encode()) <= VALUE and text not in (".", "..")}
        if not template or not all(values.get(name) for name in re.findall(r"{([^}]*)}", template)):
            return ""
        link = self.through_proxy(row, re.sub(r"{([^}]*)}", lambda it: encoded(values[it[1]]), template))
        return link if len(link) <= LINK else ""

    def table_of(self, row):
        for table in self.titles:
            if table["package"] == row.package and table["id"] == row.cells["title_id"]:
                return table
        return next((it for it in self.packages if it["id"] == row.package), {})

    def library_days(self, row):
        """Returns the days of a row that the library has, or None if it has nothing of it."""
        table = self.table_of(row)
        if table.get("held") is False:
            return None
        return (days_of(table["first"])[0] if "first" in table else EVER[0],
                days_of(table["last"])[1] if "last" in table else EVER[1])

    def has(self, row, query):
        if not self.has_any(row):
            return False
        return query.days is None or row.kind == BOOK or meet(self.library_days(row), query.days)

    def has_any(self, row):
        days = self.library_days(row)
        return days is not None and meet(days, row.coverage())

    def may_have(self, package):
        """Returns whether the library may have titles of a package."""
        table = next((it for it in self.packages if it["id"] == package), {})
        has_title = any(it["package"] == package and it.get("held", True) for it in self.titles)
        return table.get("held", True) or has_title

    def rows_with(self, query, package):
        """Returns the rows that a query may look at."""
        if not self.may_have(package):
            return []
        return [it for it in self.lists[package] if not it.aside and it.identifiers & query.identifiers]

    def shares(self, counts):
        """Returns at how many rows of each list a query looks, and as how many others their texts may count."""
        share = max(ROWS // max(sum(map(bool, counts)), 1), 1)
        if sum(counts) <= ROWS:
            return ROWS, share
        left = max(ROWS - sum(min(it, share) for it in counts), 0)
        return share + left // sum(it > share for it in counts), share

    def search(self, query, packages, grade):
        """Returns what a query finds in each package, in the order of the file, by a function that grades a row."""
        rows = {it: self.rows_with(query, it) for it in packages}
        most, share = self.shares([len(it) for it in rows.values()])
        return [self.found_in(query, grade, package, rows[package], most, share) for package in packages]

    def found_in(self, query, grade, package, rows, most, left):
        hits, is_whole = [], len(rows) <= most
        for row in rows[:most]:
            graded = grade(row, query)
            if not graded or not self.has(row, query):
                continue
            looks = text_looks(row.cells)
            if looks > left:
                is_whole = False
            else:
                left -= looks
                hits.append(Hit(row, graded, query, self, grade is grade_of))
        return Found(package, hits, is_whole)

    def dated(self, query, packages):
        """Returns the rows that cover the date of a query and do not have its volume, and whether these are all."""
        if query.days is None or query.volume is None:
            return [], True
        found = self.search(query, packages, dated_grade_of)
        return self.ranked(found), all(it.is_whole for it in found)

    def ranked(self, found):
        return sorted(hits_of(found), key=lambda it: it.rank(self))

    def within(self, hits):
        """Returns the first hits, as far as a reply shows them."""
        left = BYTES
        for at, hit in enumerate(hits[:SHOWN]):
            left -= hit.size(self)
            if left <= 0:
                return hits[:at]
        return hits[:SHOWN]


def name_of(package):
    return f"{package}_2024-01-01.txt"


class Request:
    """A random request of a world, with the reply that the pages promise."""

    def __init__(self, world):
        dice, self.world = world.dice, world
        pick = dice.choice
        self.format = self.accepted = pick(["text", "json", "html"])
        self.pairs = []
        formats = [f"info:ofi/fmt:kev:mtx:{it}" for it in ("journal", "book", "patent")]
        dates = ["1996", "1999-12", "200103", "1985", *self.recent_dates()]
        known = [*ISSNS, "x", *[ISSNS[0]] * 12 * world.is_long]
        for key, values, chance in (
                ("url_ver", ["Z39.88-2004", "Z39.88-2004", ""], 0.3), ("rft.issn", known, 0.8),
                ("rft_val_fmt", formats, 0.2), ("rft.eissn", ISSNS, 0.2), ("rft.isbn", ISBNS, 0.4),
                ("rft.jtitle", ["Acta", "T" * VALUE], 0.2), ("rft.date", dates, 0.7),
                ("rft.volume", ["3", "007", "12"], 0.3), ("rft.atitle", VALUES, 0.6),
                ("rft.genre", ["article", "Journal", "book", "bookitem", ""], 0.4)):
            if dice.random() < chance:
                self.pairs.append((key, pick(values)))
        dice.shuffle(self.pairs)
        self.path = pick(["/resolve"] * 6 + ["/go"] * 3 + ["/resolve/" + pick(["Acme", "Basic_All", "Coast"])] * 2 +
                         ["/status", "/nothing"] + ["/titles"] * (not world.is_long))
        self.method = pick(["GET"] * 8 + ["HEAD", "POST", "PUT"])
        if self.path == "/titles":
            self.pairs = [("q", pick(["a", "ACTA", "ä", "<B>", "delta\"", " beta ", "STRASSE", "z", " "]))]
        # The first such piece of a query has precedence over the field Accept, but for /go.
        if self.path not in ("/go", "/nothing") and dice.random() < 0.3:
            self.format = pick(["text", "json", "html", *["sfx"] * self.path.startswith("/resolve")])
            self.pairs.append(("format", self.format))

    def recent_dates(self):
        """Returns dates at which embargoes of days, months and years begin and end."""
        today = self.world.today
        days = [today - datetime.timedelta(days=it) for it in (0, 29, 30)]
        months = [str(it)[:7] for it in (today, months_before(today, 12))]
        return [*map(str, days), *months, str(today.year), str(today.year - 9)]

    def text(self):
        """Returns the bytes of the request."""
        query = urllib.parse.urlencode(self.pairs)
        types = {"text": "text/plain", "json": "application/json", "html": "text/html"}
        head = f"Host: node.example\r\nAccept: {types[self.accepted]}\r\n"
        if self.method == "POST" and self.path.startswith(("/resolve", "/go")):
            head += f"Content-Type: application/x-www-form-urlencoded\r\nContent-Length: {len(query)}\r\n"
            return f"POST {self.path} HTTP/1.1\r\n{head}\r\n", query
        return f"{self.method} {self.path}{'?' if query else ''}{query} HTTP/1.1\r\n{head}\r\n", None

    def wanted(self):
        """Returns the status, the address of a redirect, and what the body has, None where it is not compared."""
        takes_form = self.path.startswith(("/resolve", "/go"))
        if self.method == "PUT" or (self.method == "POST" and not takes_form):
            return 405, None, None
        if self.path == "/nothing":
            return 404, None, self.fault("NoTarget")
        if self.path == "/status":
            return 200, None, "".join(f"{name_of(it)}\n" for it in self.world.lists) if self.format == "text" else None
        if self.path == "/titles":
            return self.wanted_titles()
        packages = list(self.world.lists)
        if self.path.startswith("/resolve/"):
            packages = [self.path[len("/resolve/"):]]
            if packages[0] not in self.world.lists:
                return 404, None, self.fault("NoRelease")
        if not self.pairs and self.format == "html":
            return 200, None, None
        query = Query(self.pairs)
        if query.fault and self.format == "sfx":
            return 200, None, ([], [])
        if query.fault:
            status = (404 if self.path == "/go" else 200) if query.is_cited else 400
            return status, None, self.fault(f"nothing to look up: {query.fault}" if query.is_cited else query.fault)
        found = self.world.search(query, packages, grade_of)
        ranked, is_whole = self.world.ranked(found), all(it.is_whole for it in found)
        if self.path == "/go":
            linked = [it for it in ranked if it.is_link]
            best = next((it for it in linked if it.is_open), next(iter(linked), None))
            if best:
                return 302, best.link, None
            return 404 if is_whole else 200, None, self.body(query, packages, found, ranked)
        if self.format == "html" and self.world.redirects and is_whole and self.is_sole(query, ranked):
            return 302, ranked[0].link, None
        return 200, None, self.body(query, packages, found, ranked)

    def wanted_titles(self):
        """Returns the same for the titles that contain a text. No list here is long enough for a limit of a reply."""
        text = self.pairs[0][1].strip(" ")
        if not text:
            return (200, None, None) if self.format == "html" else (400, None, self.fault("NoText"))
        rows = [row for rows in self.world.lists.values() for row in rows if not row.aside]
        rows = [it for it in rows if text.casefold() in it.cells["publication_title"].casefold()]
        rows = [it for it in rows if self.world.has_any(it)]
        shown = [[it.package, str(it.number), it.cells["publication_title"]] for it in rows]
        return 200, None, None if self.format == "html" else shown

    def fault(self, text):
        """Returns the body of a fault, a line of text. Other representations are not compared."""
        return f"{text}\n" if self.format == "text" else None

    def is_sole(self, query, ranked):
        if len(ranked) != 1 or not self.world.within(ranked):
            return False
        hit = ranked[0]
        return (hit.availability == "available" and hit.grade == "inside" and hit.is_link
                and hit.row.cells["coverage_depth"] == "fulltext" and query.days is not None
                and lies_in(query.days, self.world.library_days(hit.row)))

    def body(self, query, packages, found, ranked):
        """Returns the text, or the hits of JSON or the links of a page and those of the rows whose date is covered."""
        if self.format == "text":
            return self.text_body(found)
        dated, is_all = self.world.dated(query, packages)
        partial = [it.package for it in found if not it.is_whole]
        tops = [self.world.within(hits) for hits in (ranked, dated)]
        left = left_out(len(ranked) - len(tops[0]), not partial)
        if self.format == "json":
            return [[json_of(it) for it in tops[0]] + left,
                    [json_of(it) | {"why": "volume"} for it in tops[1]] + left_out(len(dated) - len(tops[1]), is_all),
                    [{"package": it, "release": name_of(it)} for it in partial]]
        shown = [[it.link for it in hits if it.is_link] for hits in tops]
        return (shown[0], partial) if self.format == "sfx" else (*shown, not ranked, left, partial)

    def text_body(self, found):
        lines, shown = [], self.world.within(hits_of(found))
        for it in found:
            lines.append(f"release {name_of(it.package)} hits {'' if it.is_whole else 'at least '}{len(it.hits)}")
            for hit in it.hits[:len(shown)]:
                labels = ("title_id", "coverage_depth", "embargo_info", "access_type")
                cells = [hit.row.cells["publication_title"], hit.url, *[hit.row.cells[label] for label in labels]]
                lines.append("\t".join([str(hit.row.number), hit.grade, *cells]))
            shown = shown[len(it.hits):]
        return "".join(f"{it}\n" for it in lines)


def left_out(count, is_whole):
    """Returns the last item of a list in JSON, which says how many hits are left out, or none."""
    if not is_whole:
        return [{"more_at_least": count}]
    return [{"more": count}] if count else []


def json_of(hit):
    """Returns the members of a hit in JSON, but those with coverage in days, volumes and words."""
    cells = hit.row.cells
    return {"package": hit.row.package, "release": name_of(hit.row.package), "record": hit.row.number,
            "grade": hit.grade, "availability": hit.availability, "title": cells["publication_title"], "url": hit.page,
            "title_id": cells["title_id"], "depth": cells["coverage_depth"], "target": hit.url,
            "host": shown_host(hit.url),
            "embargo": cells["embargo_info"], "access": cells["access_type"],
            "article": hit.article, "note": ""}


class Links(html.parser.HTMLParser):
    """The addresses of the buttons of a page."""

    def __init__(self, text):
        super().__init__()
        self.found = []
        self.feed(text)

    def handle_starttag(self, tag, attrs):
        given = dict(attrs)
        if tag == "a" and given.get("class") == "go":
            self.found.append(given["href"])


def escaped(data):
    """Returns bytes as a text of test_http."""
    names = {10: "\\n", 13: "\\r", 9: "\\t"}
    return "".join(names.get(it) or (chr(it) if 32 <= it < 127 and it != 92 else f"\\x{it:02x}") for it in data)


def unescaped(text):
    names = {"n": b"\n", "r": b"\r", "t": b"\t"}
    parts = re.split(r"\\(x[0-9A-Fa-f]{2}|[nrt])", text)
    return b"".join(part.encode() if at % 2 == 0 else names.get(part) or bytes([int(part[1:], 16)])
                    for at, part in enumerate(parts))


def given_reply(line):
    """Returns the status, the fields and the body of a printed reply."""
    head, _, body = unescaped(line).partition(b"\r\n\r\n")
    first, *fields = head.decode().split("\r\n")
    return int(first.split()[1]), dict(it.split(": ", 1) for it in fields), body


def differences(request, line):
    """Returns how a reply differs from what is wanted, or None."""
    status, address, body = request.wanted()
    given, fields, bytes_given = given_reply(line)
    if given != status:
        return f"status {given} in place of {status}"
    if fields.get("Location") != address:
        return f"redirects to {fields.get('Location')} in place of {address}"
    if request.method == "HEAD":
        return f"a body: {bytes_given!r}" if bytes_given else None
    if body is None:
        return None
    if request.path == "/titles" and isinstance(body, list):
        if request.format == "json":
            found = [[it["package"], str(it["record"]), it["title"]] for it in json.loads(bytes_given)["titles"]]
        else:
            found = [it.split("\t")[:3] for it in bytes_given.decode().splitlines()]
        return None if found == body else f"titles {found} in place of {body}"
    if request.format == "json":
        answer = json.loads(bytes_given)
        found = [[{key: it[key] for key in wanted if key in it} for it, wanted in zip(given, rows)] + given[len(rows):]
                 for rows, given in zip(body, (answer["hits"], answer["also"], answer["more_in"]))]
        return None if found == body else f"hits {found[:3]} in place of {body[:3]}"
    if request.format == "sfx":
        parts = xml.etree.ElementTree.fromstring(bytes_given).find("ctx_obj")
        found = [[it.findtext("target_url") for it in parts.find("ctx_obj_targets")],
                 [it.text for it in parts.findall("more_in/*")]]
        return None if found == [*body] else f"targets {found} in place of {body}"
    if request.format == "html":
        text, (hits, dated, is_none, left, partial) = bytes_given.decode(), body
        found, words = Links(text).found, re.findall(r"<p>Not shown: ([^.]*)\.", text)
        named = re.findall(r"<p>More may be found in <bdi>([^<]*)</bdi>", text)
        # Without hits for the date, a page then shows those of other dates, which have no place in this model.
        wanted = hits + dated
        shown = found[:len(wanted)] if is_none else found
        counts = [str(it["more"]) if "more" in it else f"at least {it['more_at_least']}" for it in left]
        is_right = shown == wanted and words == counts and named == ([", ".join(partial)] if partial else [])
        return None if is_right else f"links {found}, {words}, {named} in place of {body}"
    text = bytes_given.decode()
    return None if text == body else f"{text!r} in place of {body!r}"


def run_world(dice, count, is_long):
    """Runs some requests in a new world, prints those whose reply differs, and returns how many do."""
    world, lines = World(dice, is_long), []
    lines.append(f"today {world.today}")
    site = f" {escaped(world.site_text().encode())}" if world.has_site else ""
    lines.append(f"site v 0{site}")
    lines += [f"release {name_of(it)} {escaped(world.list_text(it).encode())}" for it in world.lists]
    requests = [Request(world) for _ in range(count)]
    for it in requests:
        head, form = it.text()
        lines.append(f"respond close {escaped(head.encode())}" if form is None else
                     f"respond-to-form close {escaped(form.encode())} {escaped(head.encode())}")
    run = subprocess.run(["test_http", "65536"], input="\n".join([*lines, ""]), capture_output=True, text=True,
                         check=False)
    if run.returncode:
        sys.exit(f"test_http: {run.stdout[-200:]}{run.stderr[-200:]}")
    # Each list prints a line, each form its length, and each request its reply.
    replies = [it for it in run.stdout.splitlines()[len(world.lists):] if not it.startswith("length ")]
    differ = 0
    if len(replies) != count:
        sys.exit(f"test_http printed {len(replies)} replies to {count} requests")
    for request, reply in zip(requests, replies):
        why = differences(request, reply)
        if why:
            differ += 1
            print(f"{request.text()[0].splitlines()[0]} {request.text()[1] or ''} ({request.format}): {why}")
            print(f"  on {world.today}, site {world.site_text() if world.has_site else None!r}")
            print("".join(f"  {it}:\n{world.list_text(it)[:10000]}" for it in world.lists))
    return differ


def main():
    asked = argparse.ArgumentParser(description=__doc__, formatter_class=argparse.RawDescriptionHelpFormatter)
    asked.add_argument("--cases", type=int, default=2000)
    asked.add_argument("--seed", type=int, default=1)
    given = asked.parse_args()
    dice, differ = random.Random(given.seed), 0
    for tried in range(0, given.cases, WORLD):
        differ += run_world(dice, min(WORLD, given.cases - tried), tried // WORLD % LONG == 0)
    print(f"{given.cases} requests: {differ or 'none'} differ")
    return 1 if differ else 0


if __name__ == "__main__":
    sys.exit(main())
