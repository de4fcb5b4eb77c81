"""The cells that are texts, addresses, embargoes, depth or access. A cell that reads as it is stays as it is."""
import html
import re
import urllib.parse

from .texts import INVISIBLE, SPACES, folded, plain, remembered, word_set, words

CONTROL = {it: " " for it in [*range(32), 127]}
# The second half of the control characters is Windows-1252 that was read as ISO 8859-1.
C1 = {it: bytes([it]).decode("cp1252", "ignore") or " " for it in range(0x80, 0xA0)}
UNSAFE = re.compile(r"[\x00-\x1f\x7f-\x9f\xa0\u00ad\u200b\u3000\ufeff]")
REFERENCE = re.compile(r"&(?:#[0-9]{1,7}|#[xX][0-9a-fA-F]{1,6}|[A-Za-z][A-Za-z0-9]{1,30});")
TAGS = re.compile(r"</?(?:i|b|em|strong|u|sup|sub|span|br|p)(?: [^<>]*)?/?>", re.I)
# The bytes of a character in UTF-8, read as Windows-1252.
TWICE = re.compile("[\u00c2-\u00f4][\u0080-\u00bf\u0152\u0153\u0160\u0161\u0178\u017d\u017e\u0192\u02c6\u02dc"
                   "\u2013-\u203a\u20ac\u2122]")


def decoded_again(text: str) -> str:
    """Returns a text that was encoded in UTF-8 twice, as it was before, or the text if it was not."""
    try:
        raw = b"".join(it.encode("latin-1") if 0x80 <= ord(it) < 0xA0 else it.encode("cp1252") for it in text)
        return raw.decode("utf-8")
    except UnicodeError:
        return text


def clean(text: str) -> str:
    """Returns a text without control characters and characters that nobody sees."""
    # No such character is printable, and that is faster to test.
    if text.isprintable() or not UNSAFE.search(text):
        return text
    return text.translate(C1).translate({**CONTROL, **INVISIBLE, **SPACES})


def title(cell: str) -> str:
    """Returns a text for readers: references of HTML are decoded once, and tags of letters are removed."""
    if cell.isascii() and cell.isprintable() and "&" not in cell and "<" not in cell:
        return cell
    text = decoded_again(cell) if TWICE.search(cell) else cell
    if "&" in text:
        # Only with a semicolon: the standard library decodes `&copy` in `a=1&copy=2` too.
        text = REFERENCE.sub(lambda it: html.unescape(it[0]), text)
    if "<" in text:
        text = TAGS.sub("", text)
    text = clean(text)
    return text.strip(" ") if text != cell else cell


GOOD_ADDRESS = re.compile(r"[A-Za-z][A-Za-z0-9+.-]*://[!-~]*")
HOST = re.compile(r"(?:[A-Za-z0-9](?:[A-Za-z0-9-]*[A-Za-z0-9])?\.)+[A-Za-z]{2,24}(?::[0-9]+)?(?:[/?#].*)?")
# A link in HTML, and one as a formula of a spreadsheet.
LINKED = re.compile(r"""\s*(?:<a [^<>]*?href|=HYPERLINK\()\s*=?\s*["']([^"'<>]+)["']""", re.I)
DOI = re.compile(r"(?:doi:\s*)?(10\.[0-9]{4,9}/\S+)", re.I)
# What is between several addresses of a cell.
NEXT = re.compile(r"\s*(?:\|+|;|\s)\s*(?=https?://)", re.I)
# `[SITE_ID]`, `{custid}`, `{{inst}}`, `<your id>`, `%INST%`, `%%ID%%`, `$SITE_ID` and `${site}`, which a library has to
# fill. Two hexadecimal digits behind `%` are a byte.
PLACEHOLDER = re.compile(r"\[[A-Za-z_ -]+\]|\$?\{\{?[^{}]+\}\}?|<[A-Za-z_ -]+>|%%[A-Za-z_]+%%"
                         r"|%(?![0-9A-Fa-f]{2})[A-Za-z_]{2,}%|%[A-Z_]{4,}%|\$[A-Z_]{3,}")


def unwrapped(text: str, parameters: tuple[str, ...]) -> str:
    """Returns the address that is in one of some parameters: behind `jkey=`, or behind the `url=` of a proxy."""
    for name in parameters if "=" in text else ():
        found = re.search(rf"(?:^|[?&;|\s]){re.escape(name)}\s*=\s*([^\s|]+)", text, re.I)
        if found and re.match("https?(?:://|%3a)", found[1], re.I):
            # All that follows `url=` is the address, unless it is percent-encoded.
            is_encoded = found[1][:10].lower().find("%3a") >= 0
            inside = found[1] if name.endswith("url") and not is_encoded else found[1].split("&")[0]
            return urllib.parse.unquote(inside) if is_encoded else inside
    return text


def address(cell: str, replaced: dict[str, str], parameters: tuple[str, ...] = ()) -> str:
    """Returns an address with a scheme and without spaces. `replaced` has the texts that a map replaces, and
    `parameters` are those in which an address may be."""
    if not replaced and not parameters and GOOD_ADDRESS.fullmatch(cell) and "&amp;" not in cell and "|" not in cell:
        return cell
    text = unwrapped(cell, parameters)
    for old, new in replaced.items():
        text = text.replace(old, new)
    if found := LINKED.match(text):
        text = found[1]
    text = NEXT.split(clean(text).strip(" ").replace("&amp;", "&"), 1)[0]
    if not text or GOOD_ADDRESS.fullmatch(text):
        return text if text != cell.strip(" ") else cell
    if found := DOI.fullmatch(text):
        text = "https://doi.org/" + found[1]
    elif text.startswith("//"):
        text = "http:" + text
    elif HOST.fullmatch(text):
        text = "http://" + text
    text = re.sub(r"^([A-Za-z]+):/+(?=[^/])", r"\1://", text)
    return text.replace(" ", "%20")


# The signs that stand for an empty cell.
NOTHING = frozenset(["-", "--", "---", "–", "—", "−", "‐", "―", ".", "..", "...", "/", "//", "－", "ー"])
STATEMENTS = re.compile(r"[RP][0-9]{1,9}[DMY](?:;[RP][0-9]{1,9}[DMY])?", re.I)
UNITS = words("units")
NUMBERS = words("numbers")
NO_EMBARGO = word_set("embargo", "none")
RECENT = word_set("embargo", "recent")
HIDDEN = word_set("embargo", "hidden")
# A sign by which something may be lost, as in `?5Y`, and the sign of a moving wall: `+5Y` is the last five years.
UNCLEAR = re.compile(r"[^\w\s.,:;()\[\]/'+-]|[^\W_]\s*\+")
SIGNED = re.compile(r"([+-])\s?[0-9]")
SPAN = re.compile(r"(?<![0-9])[0-9]{1,3} ?(?:-|to|bis|à|a) ?[0-9]{1,3}(?![0-9])")


@remembered
def embargo(cell: str, unit: str = "") -> str:
    """Returns an embargo in the form of the standard, or the cell if it is in neither form.

    `12 months`, `1 Jahr`, `last 5 years` and `P1Y6M` are read. `unit` is that of a bare number, from the column's
    label."""
    if not cell or STATEMENTS.fullmatch(cell.strip(" ")):
        return cell
    text = folded(cell)
    if text in NO_EMBARGO or not text and cell.strip() in NOTHING:
        return ""
    if UNCLEAR.search(plain(cell)):
        return cell
    sign = SIGNED.match(plain(cell))
    if found := re.fullmatch(r"([rp])([0-9]{1,4})y ?([0-9]{1,4})m", text):
        return f"{found[1].upper()}{int(found[2]) * 12 + int(found[3])}M"
    if any(it not in UNITS for it in re.findall(r"(?<=[0-9])[^\W\d_]+", text)):
        # `1l months`
        return cell
    tokens = [NUMBERS.get(it, it) for it in re.sub(r"(\d)([^\W\d])", r"\1 \2", text).split()]
    for at, (one, years, two, months) in enumerate(zip(tokens, tokens[1:], tokens[2:], tokens[3:])):
        if (one + two).isdecimal() and (UNITS.get(years), UNITS.get(months)) == ("Y", "M"):
            # `1 year 6 months`
            tokens[at:at + 4] = [str(int(one[:9]) * 12 + int(two[:9])), months]
            break
    numbers = [int(it[:9]) for it in tokens if it.isascii() and it.isdigit()]
    is_recent = sign[1] == "+" if sign else bool(RECENT & set(tokens)) and not HIDDEN & set(tokens)
    if len(numbers) == 2 and SPAN.search(plain(cell)):
        # Of `12-24 months` the length counts that hides more.
        numbers = [min(numbers) if is_recent else max(numbers)]
    units = {UNITS[it] for it in tokens if it in UNITS} or ({unit} if unit else set())
    if len(numbers) != 1 or len(units) != 1 or numbers[0] > 99_999:
        return cell
    count, one = numbers[0], units.pop()
    if count == 0:
        return ""
    if one == "W":
        count, one = count * 7, "D"
    return f"{'R' if is_recent else 'P'}{count}{one}"


@remembered
def is_embargo(cell: str) -> bool:
    """Returns whether the reader takes a cell for an embargo: one statement, or one of each kind."""
    parts = cell.strip(" ").upper().split(";")
    return (STATEMENTS.fullmatch(cell.strip(" ")) is not None and all(int(it[1:-1]) for it in parts)
            and len({it[0] for it in parts}) == len(parts))


DEPTH = words("depth")
ACCESS = words("access")
YES_NO = words("yes_no")


def depth(cell: str) -> str:
    """Returns the depth of coverage in the standard's words, or the cell if no table knows it."""
    return DEPTH.get(folded(cell), cell) if cell else cell


def access(cell: str) -> str:
    """Returns F or P, or the cell if no table knows it."""
    return ACCESS.get(folded(cell), cell) if cell else cell


def open_access(cell: str) -> str:
    """Returns the access that a column says by yes or no, or nothing."""
    said = {"yes": "F", "no": "P"}.get(YES_NO.get(folded(cell), "")) or access(cell)
    return said if said in ("F", "P") else ""
