#!/usr/bin/python3
"""Asks a node for random answers, and compares each with the schema of the JSON of a node.

answers_random.py make FOLDER [--seed N]
answers_random.py ask ADDR [--cases N] [--seed N]

`make` writes lists into a folder, and the site file site.toml beside it. `ask` sends requests to a node that has them:
each answer in JSON has to match the schema of samples/discovery, with no member that the schema does not describe. Each
query of /resolve is also asked for as a fragment, which may have only the elements and attributes that are documented,
and links of http or https; and as the reply of SFX, which has to have the links of the hits in JSON, in their order,
and with `svc.fulltext=yes` those of open full texts alone. Prints how many answers of each kind there were, and each
one that differs."""
import argparse
import collections
import html.parser
import http.client
import json
import pathlib
import random
import sys
import urllib.parse
import xml.etree.ElementTree

import jsonschema

from resolver_random import ISBNS, ISSNS, LABELS, World, name_of

SCHEMA = pathlib.Path(__file__).resolve().parents[2] / "samples/discovery/answers.schema.json"
# Journals with more rows than a response shows, and than a query looks at.
MANY, VAST = ("2049-3630", 1_003), ("0028-0836", 5_007)
SITE = """
[library]
name = "Library <1>"
request = "https://library.example/request?{query}"
[[link]]
label = "Chat & more"
address = "https://library.example/chat?t={title}"
when = "no-hits"
"""
DATES = ["1996", "1999-12", "200103", "1985", "2024-02-30", "Winter", ""]
TEXTS = ["Acta", "<b>\"'&", "مجلة العلوم", "\u202e\u0007", "a\tb\nc", "\ufffe", "100%", "x" * 300, "+ +"]
ELEMENTS = {"div", "p", "ul", "li", "a", "span", "bdi"}


def make(folder, seed):
    """Writes random lists, and a site file with a proxy and links."""
    for number in range(1_000):
        world = World(random.Random(seed + number), False)
        if world.proxy and len(world.lists) == 3 and all(world.lists.values()):
            break
    folder.mkdir()
    for package in world.lists:
        (folder / name_of(package)).write_text(world.list_text(package), encoding="utf-8")
    lines = ["\t".join(LABELS)]
    for issn, count in (MANY, VAST):
        row = {"publication_title": "Many", "print_identifier": issn, "title_url": "https://a.example/",
               "coverage_depth": "fulltext", "publication_type": "serial"}
        lines += ["\t".join(row.get(label, "") for label in LABELS)] * count
    (folder / name_of("Many")).write_text("\n".join([*lines, ""]), encoding="utf-8")
    text = world.site_text().replace('[library]\nname = "L"\n', SITE.partition("[[link]]")[0])
    (folder.parent / "site.toml").write_text(text + "[[link]]" + SITE.partition("[[link]]")[2], encoding="utf-8")


def strict(schema):
    """Returns the schema in which no object has other members than those that it describes."""
    if isinstance(schema, list):
        return [strict(it) for it in schema]
    if not isinstance(schema, dict):
        return schema
    made = {key: strict(it) for key, it in schema.items()}
    if made.get("type") == "object" and "properties" in made:
        made["additionalProperties"] = False
    return made


def validators():
    """Returns a validator for each kind of answer."""
    schema = json.loads(SCHEMA.read_text(encoding="utf-8"))
    jsonschema.Draft202012Validator.check_schema(schema)
    exact = strict(schema)
    # An item of `also` is a hit with one more member, so its members are those of both.
    both = schema["$defs"]["hit"]["properties"] | schema["$defs"]["also"]["properties"]
    exact["$defs"]["also"] = exact["$defs"]["hit"] | {
        "properties": both, "required": [*schema["$defs"]["hit"]["required"], "why"]}
    return {kind: [jsonschema.Draft202012Validator(it | {"anyOf": [{"$ref": f"#/$defs/{kind}"}]})
                   for it in (schema, exact)] for kind in ("resolve", "titles", "status", "error")}


class Fragment(html.parser.HTMLParser):
    """What is wrong with a fragment."""

    def __init__(self, text):
        super().__init__()
        self.open, self.wrong = [], []
        self.feed(text)
        self.close()
        if self.open:
            self.wrong.append(f"open {self.open}")

    def handle_starttag(self, tag, attrs):
        self.open.append(tag)
        given = dict(attrs)
        if tag not in ELEMENTS or set(given) - {"class", "lang", "href"}:
            self.wrong.append(self.get_starttag_text())
        if tag == "a" and not given.get("href", "").lower().startswith(("http://", "https://")):
            self.wrong.append(self.get_starttag_text())

    def handle_endtag(self, tag):
        if not self.open or self.open.pop() != tag:
            self.wrong.append(f"</{tag}>")

    def handle_comment(self, data):
        self.wrong.append(data)


class Asker:
    """Sends random requests over one connection, and counts their answers."""

    def __init__(self, addr, seed):
        self.addr, self.dice, self.counts, self.wrong = addr, random.Random(seed), collections.Counter(), 0
        self.connection = http.client.HTTPConnection(addr, timeout=60)
        self.validators = validators()

    def target(self):
        """Returns a random target and the pairs of its query."""
        pick, chance = self.dice.choice, self.dice.random
        package = pick(["Acme", "Basic_All", "Coast", "Delta", "Many", "None"])
        path = pick(["/resolve"] * 12 + [f"/resolve/{package}"] * 3
                    + ["/titles"] * 3 + ["/go", "/status", "/nothing"])
        if path == "/titles":
            pairs = [("q", pick(["a", "ACTA", "ä", "<B>", "STRASSE", "z", " ", *TEXTS])),
                     ("start", pick(["0", "0", "3", "2000", "x"]))]
            return path, pairs[:self.dice.randint(0, 2)]
        pairs = []
        for key, values, part in (
                ("rft.issn", [*ISSNS, ISSNS[0], "x", ISSNS[0].replace("-", "")], 0.75), ("rft.isbn", ISBNS, 0.3),
                ("rft.date", DATES, 0.6), ("rft.volume", ["1", "007", "12", "x"], 0.4), ("rft.jtitle", TEXTS, 0.3),
                ("rft.atitle", TEXTS, 0.2), ("rft.au", TEXTS, 0.2),
                ("rft_id", [f"info:doi/10.5555/{pick(TEXTS)}"], 0.1),
                ("rft.genre", ["article", "book", "bookitem", "?"], 0.2),
                ("url_ver", ["Z39.88-2004", "Z39.88-2020"], 0.1),
                ("rft_val_fmt", ["info:ofi/fmt:kev:mtx:journal", "info:ofi/fmt:kev:mtx:patent"], 0.1)):
            if chance() < part:
                pairs.append((key, pick(values)))
        if chance() < 0.004:
            pairs = [("rft.issn", pick([MANY, VAST])[0])]
        if chance() < 0.01:
            pairs = [("rft.issn", f"{ISSNS[0]} " * 65)]
        self.dice.shuffle(pairs)
        return path, pairs

    def answer(self, path, pairs):
        """Returns the status, the media type and the body of a response."""
        query = urllib.parse.urlencode(pairs)
        self.connection.request("GET", f"{path}?{query}", headers={"Accept": "application/json"})
        response = self.connection.getresponse()
        return response.status, response.getheader("Content-Type"), response.read()

    def differs(self, target, why):
        self.wrong += 1
        print(f"{target}: {why}")

    def ask(self):
        """Sends a request, and compares the answer."""
        path, pairs = self.target()
        target = f"{path} {pairs}"
        status, kind, body = self.answer(path, [*pairs, ("format", "json")])
        if status == 302:
            self.counts["redirects"] += 1
            return
        if kind != "application/json":
            self.differs(target, f"{status} {kind}")
            return
        answer = json.loads(body)
        name = "error" if isinstance(answer, dict) and "fault" in answer else \
            {"resolve": "resolve", "go": "resolve"}.get(path.split("/")[1], path.split("/")[1])
        self.counts[name] += 1
        for validator in self.validators[name]:
            for error in validator.iter_errors(answer):
                self.differs(target, error.message[:300])
        if name == "resolve":
            self.count(answer)
        if path.startswith("/resolve"):
            self.ask_fragment(target, path, pairs)
            self.ask_sfx(target, path, pairs, answer.get("hits", []))

    def count(self, answer):
        for key, is_so in (("with hits", answer["hits"]), ("with also", answer["also"]), ("refused", answer["refused"]),
                           ("left out", any("package" not in it for it in answer["hits"]))):
            self.counts[key] += bool(is_so)

    def ask_fragment(self, target, path, pairs):
        status, kind, body = self.answer(path, [*pairs, ("format", "fragment")])
        self.counts["fragments"] += 1
        wrong = Fragment(body.decode("utf-8")).wrong
        if wrong or kind != "text/html; charset=utf-8" or status not in (200, 400, 404):
            self.differs(target, f"fragment: {status} {kind} {wrong}")

    def ask_sfx(self, target, path, pairs, hits):
        linked = [it for it in hits if it.get("host") or it.get("article")]
        alone = [("sfx.response_type", "multi_obj_xml"), ("svc.fulltext", "yes")]
        for more, wanted in (([("format", "sfx")], linked), (alone, [it for it in linked if is_open(it)])):
            _, kind, body = self.answer(path, [*pairs, *more])
            self.counts["replies of SFX"] += 1
            targets = xml.etree.ElementTree.fromstring(body).findall("ctx_obj/ctx_obj_targets/target")
            found = [it.findtext("target_url") for it in targets if it.findtext("service_type") != "getWebService"]
            if kind != "application/xml; charset=utf-8" or found != [it["article"] or it["url"] for it in wanted]:
                self.differs(target, f"SFX: {kind} {found[:3]}")


def is_open(hit):
    """Returns whether a hit in JSON has full text that is open to readers."""
    return hit["availability"] != "embargoed" and hit["depth"] != "abstracts"


def main():
    asked = argparse.ArgumentParser(description=__doc__, formatter_class=argparse.RawDescriptionHelpFormatter)
    asked.add_argument("step", choices=["make", "ask"])
    asked.add_argument("place")
    asked.add_argument("--cases", type=int, default=5000)
    asked.add_argument("--seed", type=int, default=1)
    given = asked.parse_args()
    if given.step == "make":
        make(pathlib.Path(given.place), given.seed)
        return 0
    asker = Asker(given.place, given.seed)
    for _ in range(given.cases):
        asker.ask()
    for name, count in sorted(asker.counts.items()):
        print(f"{name}: {count}")
    print(f"answers that differ: {asker.wrong}")
    return 1 if asker.wrong else 0


if __name__ == "__main__":
    sys.exit(main())
