"""The configuration: where lists come from, in TOML. Each fault names its key."""
import functools
import hashlib
import json
import pathlib
import re
import string
import tomllib
import urllib.parse
from typing import Any, NamedTuple

from kbfeed_convert import mapping, names
from kbfeed_convert.faults import BYTES, WrongArguments
from kbfeed_convert.parsing import meant

from .keys import Key, file_of

HERE = pathlib.Path(__file__).parent
FOLDER = "/var/lib/kbfeed-lists"
with open(HERE / "interfaces.toml", "rb") as table:
    INTERFACES: dict[str, dict[str, str]] = tomllib.load(table)
DEFAULTS = {"interface": "url", "url": "", "key_file": "", "key_header": "", "key_prefix": "", "key_query": "",
            "map": "", "max_removed": 10, "max_changed": 50, "every_days": 1, "max_seconds": 600, "max_bytes": BYTES,
            "max_added": 50, "max_convert_seconds": 900, "max_convert_bytes": 600 << 20, "inside": False,
            "replace": {}, "widened": "hold"}
# The texts of a source: what each has to be, and in words.
TEXTS = {
    "package": ("[A-Za-z0-9._-]+", "1 to 100 letters, digits, '-', '_' and '.'"),
    "interface": ("|".join(INTERFACES), f"one of {', '.join(INTERFACES)}"),
    "url": (r"https?://[^\s/?#@]+([/?][^\s#]*)?", "an address as https://vendor.example/list, without a password"),
    "id": (r"[^\s/]+", "the name of a package there"),
    "customer": (r"\S.*", "the customer's number"),
    "key_file": ("[A-Za-z0-9][A-Za-z0-9._-]*", "the name of a file in the folder keys beside the configuration"),
    "key_header": ("[A-Za-z0-9-]+", "the name of a header, as X-API-Key"),
    "key_prefix": ("[ -~]*", "visible ASCII"),
    "key_query": (r"[A-Za-z0-9._~\[\]-]+", "the name of a parameter, as apikey"),
    "type": ("serial|monograph", "serial or monograph"),
    "encoding": ("[A-Za-z0-9._-]+", "the name of an encoding, as cp1252"),
    "sheet": ("(?s:.+)", "the name of a sheet"),
    "map": ("(?s:.+)", "a file"),
    "profile": ("|".join(mapping.PROFILES), f"one of {', '.join(mapping.PROFILES)}"),
    "widened": ("hold|warn", "hold or warn"),
}
# The numbers of a source, each with its least and its most value.
NUMBERS = {"max_removed": (0, 100), "max_changed": (0, 100), "every_days": (1, 366), "max_seconds": (1, 86_400),
           "max_bytes": (1, BYTES), "max_added": (0, 10_000), "max_convert_seconds": (1, 86_400),
           "max_convert_bytes": (64 << 20, 1 << 40)}
# The options of kbfeed-convert that a source may have.
OPTIONS = ("type", "encoding", "sheet", "map", "profile")


class Source(NamedTuple):
    """Where the list of a package comes from. `url` is the whole address without the key, `options` are arguments of
    kbfeed-convert, and `map` is the path of its map or empty. Bounds are percent, as `kbfeed diff` has them."""
    package: str
    url: str
    beside: pathlib.Path
    key_file: str
    key_header: str
    key_prefix: str
    key_query: str
    options: tuple[str, ...]
    map: str
    max_removed: int
    max_changed: int
    every_days: int
    max_added: int
    max_seconds: int
    max_bytes: int
    max_convert_seconds: int
    max_convert_bytes: int
    inside: bool
    widened: str

    def key(self) -> Key | None:
        """Reads the key, if the source has one."""
        if not self.key_file:
            return None
        file = file_of(self.key_file, self.beside)
        return Key(file, self.url, self.key_header, self.key_prefix, self.key_query)

    def digest(self) -> str:
        """Returns a digest of what decides how the list is read: the settings, the map and the converter. If it has
        changed, the list has to be converted again, although the vendor's file is the same."""
        read = pathlib.Path(self.map).read_bytes() if self.map and pathlib.Path(self.map).is_file() else b""
        settings = json.dumps([self.url, self.options, converter_digest()]).encode()
        return hashlib.sha256(settings + read).hexdigest()


class Configuration(NamedTuple):
    """The folder of the published lists, and the sources in the order of the file."""
    folder: pathlib.Path
    sources: list[Source]


@functools.cache
def converter_digest() -> str:
    """Returns a digest of the converter's modules and tables."""
    files = sorted(it for it in pathlib.Path(mapping.__file__).parent.iterdir() if it.suffix in (".py", ".toml"))
    return hashlib.sha256(b"".join(it.read_bytes() for it in files)).hexdigest()


def read(path: str) -> tuple[Configuration, list[str]]:
    """Reads a configuration, and returns it with its faults. Sources with a fault are left out.

    Raises `WrongArguments` if the file cannot be read or is not TOML."""
    try:
        with open(path, "rb") as file:
            found = tomllib.load(file)
    except FileNotFoundError as error:
        raise WrongArguments(f"{path}: {error.strerror}: make it, or name another by --config") from error
    except OSError as error:
        raise WrongArguments(f"{path}: {error.strerror}") from error
    except (tomllib.TOMLDecodeError, UnicodeDecodeError) as error:
        raise WrongArguments(f"{path}: {error}") from error
    faults = [f"{key}: the keys are folder and [[source]]" for key in found if key not in ("folder", "source")]
    folder, tables = found.get("folder", FOLDER), found.get("source", [])
    if not isinstance(folder, str) or not folder.startswith("/"):
        faults.append("folder: a path from the root is needed, as /var/lib/kbfeed-lists")
    if not isinstance(tables, list) or not all(isinstance(it, dict) for it in tables):
        faults.append("source: each source begins with [[source]]")
        tables = []
    sources: list[Source] = []
    for number, given in enumerate(tables, 1):
        where = f"source {number} ({given['package']})" if isinstance(given.get("package"), str) else f"source {number}"
        wrong = source_faults(given)
        if not wrong and any(it.package == given["package"] for it in sources):
            wrong = ["package: two sources have it"]
        faults += [f"{where}: {it}" for it in wrong]
        if not wrong:
            sources.append(source_of(given, pathlib.Path(path).resolve().parent))
    return Configuration(pathlib.Path(str(folder)), sources), faults


def filled(given: dict[str, Any]) -> dict[str, Any]:
    """Returns the keys of a source with those of its interface, and defaults for the others."""
    interface = INTERFACES.get(str(given.get("interface", "url")), {})
    if "key_query" in given:
        interface = {key: value for key, value in interface.items() if key not in ("key_header", "key_prefix")}
    return {**DEFAULTS, **interface, **given}


def parameters(path: str) -> list[str]:
    """Returns the names of the values that a path has."""
    return [name for _, name, _, _ in string.Formatter().parse(path) if name]


def source_faults(given: dict[str, Any]) -> list[str]:
    """Returns what is wrong with the keys of a source."""
    faults = [it for key, value in given.items() if (it := value_fault(key, value))]
    if "package" not in given:
        faults.append("package: it is missing")
    if faults:
        return faults
    whole = filled(given)
    needed = ["url", *parameters(str(whole["path"]))]
    faults += [f"{key}: the interface {whole['interface']} needs it" for key in needed if not whole.get(key)]
    faults += [f"{key}: the interface {whole['interface']} does not use it"
               for key in ("id", "customer") if key in given and key not in needed]
    if whole["key_file"]:
        if bool(whole["key_header"]) == bool(whole["key_query"]):
            faults.append("key_file: one of key_header and key_query says where the key goes")
        if not str(whole["url"]).startswith("https://"):
            faults.append("url: a key is only sent over https")
    else:
        faults += [f"{key}: key_file is missing" for key in ("key_header", "key_prefix", "key_query") if key in given]
    return faults


def value_fault(key: str, value: Any) -> str:
    """Returns what is wrong with the value of a key, or nothing."""
    if key in NUMBERS:
        least, most = NUMBERS[key]
        is_number = isinstance(value, int) and not isinstance(value, bool) and least <= value <= most
        return "" if is_number else f"{key}: {value!r} is not a number from {least} to {most}"
    if key == "inside":
        return "" if isinstance(value, bool) else "inside: it is not true or false"
    if key == "replace":
        is_right = isinstance(value, dict) and all(old and "=" not in old and isinstance(new, str)
                                                   for old, new in value.items())
        return "" if is_right else "replace: it is not a table as { \"[SITE_ID]\" = \"4711\" }"
    if key not in TEXTS:
        return f"{key}: a source has no such key{meant(key, [*TEXTS, *NUMBERS, 'inside', 'replace'])}"
    form, words = TEXTS[key]
    is_accepted = isinstance(value, str) and re.fullmatch(form, value) is not None
    if is_accepted and key == "url":
        is_accepted = has_host(value)
    if is_accepted and key == "package":
        is_accepted = names.package(value) == value and re.search("[A-Za-z0-9]", value) is not None
    # The value may have a key in it.
    return "" if is_accepted else f"{key}: it is not {words}"


def has_host(url: str) -> bool:
    """Returns whether an address has a host, and a port that can be one."""
    try:
        parts = urllib.parse.urlsplit(url)
        return bool(parts.hostname) and (parts.port is None or parts.port > 0)
    except ValueError:
        return False


def source_of(given: dict[str, Any], beside: pathlib.Path) -> Source:
    """Returns the source of keys without a fault."""
    whole = filled(given)
    values = {key: urllib.parse.quote(str(whole[key]), safe="") for key in parameters(str(whole["path"]))}
    whole["url"] = joined(str(whole["url"]), str(whole["path"]).format_map(values))
    whole["map"] = str(beside / whole["map"]) if whole["map"] else ""
    options = (*(f"--{key}={whole[key]}" for key in OPTIONS if whole.get(key)),
               *(f"--replace={old}={new}" for old, new in whole["replace"].items()))
    kept = {key: whole[key] for key in Source._fields if key in whole}
    return Source(**kept, beside=beside, options=options)


def joined(url: str, path: str) -> str:
    """Returns an address with a path or a parameter behind it."""
    if path.startswith("?") and "?" in url:
        return f"{url}&{path[1:]}"
    return (url.rstrip("/") if path.startswith("/") else url) + path


def file_faults(sources: list[Source]) -> list[str]:
    """Returns what is wrong with the files that sources name: keys and maps."""
    faults = []
    for source in sources:
        try:
            source.key()
            if source.map:
                mapping.read(source.map)
        except WrongArguments as error:
            faults.append(f"source {source.package}: {str(error).removeprefix('--')}")
        except OSError as error:
            faults.append(f"source {source.package}: map: {error.filename}: {error.strerror}")
    return faults
