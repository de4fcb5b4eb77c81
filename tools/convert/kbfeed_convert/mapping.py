"""A map: what a library says about one vendor's lists, in TOML. A profile is a map that comes with the program."""
import pathlib
import tomllib
from typing import Any, NamedTuple

from . import labels, strict
from .faults import WrongArguments
from .parsing import meant
from .texts import folded

TEXTS = ("labels", "constants", "replace")
KEYS = (*TEXTS, "date_order", "choose", "where", "unwrap", "library")
# The keys of a profile besides those of a map, and those of the table `library`.
PROFILE_KEYS = ("title", "header")
LIBRARY_KEYS = ("package", "note", "proxy", "hidden")

with open(pathlib.Path(__file__).parent / "profiles.toml", "rb") as file:
    PROFILES: dict[str, dict[str, Any]] = tomllib.load(file)


class Choice(NamedTuple):
    """Columns of which the first group with a text counts. `own` is how many groups are the library's own."""
    labels: list[str]
    columns: list[list[str]]
    own: int


class Map(NamedTuple):
    """What is said about a list: the labels of headers, the cells that all records have, the texts to replace in
    addresses, the order of dates, columns to choose from, the values of a column that records have to have, the
    parameters in which an address is, and where the selections of a library are."""
    labels: dict[str, str]
    constants: dict[str, str]
    replaced: dict[str, str]
    order: str
    choices: list[Choice]
    where: dict[str, list[str]]
    unwrapped: list[str]
    library: dict[str, Any]
    profile: str = ""

    def is_read(self) -> bool:
        """Returns whether it changes what the reader takes from a list that is KBART."""
        texts = {"title_id", "embargo_info", "coverage_depth", "access_type", "publication_title", "title_url"}
        return (bool(self.labels or self.choices or self.where)
                or any(it in {*strict.REQUIRED, *strict.OPTIONAL} - texts for it in self.constants))

    def over(self, other: "Map") -> "Map":
        """Returns this map with what another one says where it says nothing."""
        return Map({**other.labels, **self.labels}, {**other.constants, **self.constants},
                   {**other.replaced, **self.replaced}, self.order or other.order, self.choices or other.choices,
                   self.where or other.where, self.unwrapped or other.unwrapped, self.library or other.library,
                   self.profile or other.profile)

    def renamed(self, header: list[str]) -> dict[str, str]:
        """Returns the label of each header that the map names, empty if it is not used.

        Those of a profile may differ in case and signs."""
        alike = {folded(key): label for key, label in self.labels.items()} if self.profile else {}
        found: dict[str, str] = {}
        for cell in map(str.strip, header):
            if cell in self.labels:
                found[cell] = self.labels[cell]
            elif folded(cell) in alike:
                found[cell] = alike[folded(cell)]
        for column in [*self.where, *self.library_columns()]:
            for cell in map(str.strip, header):
                if is_alike(cell, column):
                    found.setdefault(cell, "")
        for choice in self.choices:
            is_first = True
            for group in choice.columns:
                places = [place_of(header, it) for it in group]
                for label, place in zip(choice.labels, places):
                    if place >= 0:
                        found[header[place].strip()] = label if is_first else ""
                is_first = is_first and max(places) < 0
        return found

    def library_columns(self) -> list[str]:
        """Returns the columns in which the selections of a library are, but for those of packages."""
        return [*self.library.get("proxy", []), *self.library.get("hidden", {})]

    def uses(self, cell: str) -> bool:
        """Returns whether a choice, a condition or a selection reads the column with this header."""
        chosen = [column for choice in self.choices for group in choice.columns for column in group]
        named = [*self.library.get("package", []), *self.library.get("note", [])]
        return any(is_alike(cell.strip(), it) for it in [*chosen, *self.where, *self.library_columns(), *named])


NOTHING = Map({}, {}, {}, "", [], {}, [], {})


def is_alike(cell: str, column: str) -> bool:
    """Returns whether a header is a column that a map names."""
    return cell == column or folded(cell) != "" and folded(cell).replace(" ", "") == folded(column).replace(" ", "")


def place_of(header: list[str], column: str) -> int:
    """Returns the place of a column that a map names, or -1."""
    return next((at for at, cell in enumerate(header) if is_alike(cell.strip(), column)), -1)


def read(path: str | None) -> Map:
    """Reads a map. It is wrong if a key is unknown, a value is no text, or a label is none."""
    if not path:
        return NOTHING
    try:
        with open(path, "rb") as file:
            found = tomllib.load(file)
    except (tomllib.TOMLDecodeError, UnicodeDecodeError) as error:
        raise WrongArguments(f"--map: {path}: {error}") from error
    return parsed(found, "--map")


def profile(name: str) -> Map:
    """Returns a profile by its name."""
    found = {key: value for key, value in PROFILES[name].items() if key not in PROFILE_KEYS}
    return parsed(found, f"profile {name}")._replace(profile=name)


def profile_of(header: list[str]) -> str:
    """Returns the name of the profile whose labels a header has, of several the one with the most, or nothing."""
    best, name = 0, ""
    for each, table in PROFILES.items():
        for group in table["header"]:
            if len(group) > best and all(place_of(header, it) >= 0 for it in group):
                best, name = len(group), each
    return name


def parsed(found: dict[str, Any], where: str) -> Map:
    """Returns a map from its TOML. Raises `WrongArguments` if something is wrong with it."""
    for key, value in found.items():
        if key not in KEYS:
            raise WrongArguments(f"{where}: {key} is none of [labels], [constants], [replace], date_order, [[choose]], "
                                 f"[where], unwrap and [library]{meant(key, KEYS)}")
        if fault := value_fault(key, value):
            raise WrongArguments(f"{where}: {fault}")
    renamed = {key.strip(): value for key, value in found.get("labels", {}).items()}
    choices = [Choice(it["labels"], it["columns"], it.get("own", 0)) for it in found.get("choose", [])]
    for label in [*renamed.values(), *[label for choice in choices for label in choice.labels]]:
        # A header without a label is not used.
        if label and label not in strict.LABELS and label not in labels.OWN:
            raise WrongArguments(f"{where}: {label} is not a label{meant(label, [*strict.LABELS, *labels.OWN])}")
    for label in found.get("constants", {}):
        if label not in strict.LABELS:
            raise WrongArguments(f"{where}: {label} is not a label of a list{meant(label, strict.LABELS)}")
    if "" in found.get("replace", {}):
        raise WrongArguments(f"{where}: [replace] has an empty text")
    return Map(renamed, found.get("constants", {}), found.get("replace", {}), found.get("date_order", ""), choices,
               found.get("where", {}), found.get("unwrap", []), found.get("library", {}))


def value_fault(key: str, value: Any) -> str:
    """Returns what is wrong with the value of a key, or nothing."""
    if key == "date_order":
        return "" if value in ("dmy", "mdy") else "date_order is \"dmy\" or \"mdy\""
    if key in TEXTS:
        is_right = isinstance(value, dict) and all(isinstance(it, str) for it in value.values())
        return "" if is_right else f"[{key}] has lines as \"a text\" = \"another\""
    if key == "unwrap":
        return "" if is_texts(value) else "unwrap is a list of parameters, as [\"jkey\"]"
    if key == "where":
        is_right = isinstance(value, dict) and all(map(is_texts, value.values()))
        return "" if is_right else "[where] has lines as \"Status\" = [\"Subscribed\"]"
    if key == "choose":
        is_right = isinstance(value, list) and all(map(is_choice, value))
        return "" if is_right else "[[choose]] has labels, and columns of which each group has as many names"
    is_right = isinstance(value, dict) and all(
        name in LIBRARY_KEYS and (isinstance(it, dict) and all(map(is_texts, it.values())) if name == "hidden"
                                  else is_texts(it)) for name, it in value.items())
    return "" if is_right else f"[library] has {', '.join(LIBRARY_KEYS)}, each with the names of columns"


def is_texts(value: Any) -> bool:
    """Returns whether a value is a list of texts."""
    return isinstance(value, list) and all(isinstance(it, str) for it in value)


def is_choice(value: Any) -> bool:
    """Returns whether a value is a choice of columns."""
    if not isinstance(value, dict) or not {"labels", "columns"} <= set(value) <= {"labels", "columns", "own"}:
        return False
    columns, own = value["columns"], value.get("own", 0)
    return (is_texts(value["labels"]) and isinstance(columns, list) and bool(columns) and isinstance(own, int)
            and all(is_texts(it) and len(it) == len(value["labels"]) for it in columns))
