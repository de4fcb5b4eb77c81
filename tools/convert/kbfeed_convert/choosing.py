"""Which records of a list are held, and which of several columns counts, as a map or a profile says."""
from .mapping import Map, place_of
from .texts import folded


def part_of(label: str) -> str:
    """Returns the part of a coverage that a label says: its first or its last end, its embargo, or the label itself."""
    return next((it for it in ("first", "last", "embargo") if it in label.split("_")), label)


class Chooser:
    """Applies the choices and conditions of a map to the records of one list.

    `is_shared` leaves out what is one library's own: its columns, and the conditions."""

    def __init__(self, rules: Map, header: list[str], is_shared: bool = False):
        # For each choice the places that have the labels, the groups, and the labels of each part, by their numbers: of
        # each part the first group counts that has its first label, or else one of the others.
        self.choices: list[tuple[list[int], list[list[int]], list[list[int]]]] = []
        for choice in rules.choices:
            groups = [[place_of(header, it) for it in group] for group in choice.columns]
            kept = [it for it in groups if max(it) >= 0]
            common = [it for it in groups[choice.own:] if max(it) >= 0]
            if len(kept) > 1:
                parts: dict[str, list[int]] = {}
                for at, label in enumerate(choice.labels):
                    parts.setdefault(part_of(label), []).append(at)
                self.choices.append((kept[0], common if is_shared and common else kept, list(parts.values())))
        self.where = {} if is_shared else {
            place: (header[place].strip(), {folded(it) for it in values})
            for column, values in rules.where.items() if (place := place_of(header, column)) >= 0}

    def alternatives(self, places: set[int]) -> set[int]:
        """Returns the places from which the cells of some places may come."""
        return {group[at] for target, groups, _ in self.choices for at, place in enumerate(target) if place in places
                for group in groups if group[at] >= 0}

    def not_held(self, cells: list[str]) -> str:
        """Returns why a record is not held, or nothing."""
        for place, (column, values) in self.where.items():
            cell = cells[place].strip() if place < len(cells) else ""
            if folded(cell) not in values:
                return f"the column {column!r} has {cell[:100]!r}"
        return ""

    def fields(self, cells: list[str]) -> list[str]:
        """Returns the cells of a record in which each choice has been made."""
        if not self.choices:
            return cells
        found = list(cells)
        for target, groups, parts in self.choices:
            for part in parts:
                # Each end for itself: one that a group lacks is not open. A month never comes from beside another year.
                texts = [[cells[group[at]] if 0 <= group[at] < len(cells) else "" for at in part] for group in groups]
                chosen = next((it for it in texts if it[0].strip()),
                              next((it for it in texts if any(map(str.strip, it))), [""] * len(part)))
                for at, text in zip(part, chosen):
                    if (place := target[at]) >= 0:
                        found += [""] * (place + 1 - len(found))
                        found[place] = text
        return found
