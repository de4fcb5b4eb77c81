"""Whether a record is a serial or a book: by its type, and by its identifiers where the type does not say it."""
from .texts import folded, remembered, words

# From a folded type to `serial`, `monograph` or `neither`.
KINDS = words("types")


@remembered
def read(cell: str, has_issn: bool, has_isbn: bool, default: str) -> tuple[str | None, str]:
    """Returns the kind of a record and the rule that decided it. The kind is None if the record is neither.

    `default` is the kind of records without a type. A book with an ISSN alone stays a book: that ISSN is the number of
    its series."""
    kind = KINDS.get(folded(cell))
    if kind == "offline":
        return None, "a type that is not online"
    if kind == "neither" and not has_issn and not has_isbn:
        return None, "a type that is neither serial nor book"
    rule = "a type in other words"
    if kind in (None, "neither"):
        if default and not cell.strip():
            kind, rule = default, "the type that --type gives"
        else:
            kind, rule = "monograph" if has_isbn else "serial", "the identifiers decide the type"
    if kind == "serial" and has_isbn and not has_issn:
        return "monograph", "the identifiers decide the type"
    return kind, rule


def is_offline(cell: str) -> bool:
    """Returns whether a type is that of something that nobody reads online."""
    return KINDS.get(folded(cell)) == "offline"
