"""A cell of a table, which may have an address behind its text."""


class Linked(str):
    """A text with an address behind it."""
    link: str

    def __new__(cls, text: str, link: str) -> "Linked":
        """Returns a text with a link."""
        made = super().__new__(cls, text)
        made.link = link
        return made


def link_of(cell: str) -> str:
    """Returns the address behind a cell, or nothing."""
    return cell.link if isinstance(cell, Linked) else ""
