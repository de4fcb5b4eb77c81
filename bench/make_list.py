#!/usr/bin/env python3
"""Writes a list of serials of exactly B bytes to standard output: a KBART file (NISO RP-9-2014) with 25 columns.

make_list.py --bytes B [--seed S]

The same arguments give the same bytes: the generator uses only `random()`, which Python keeps the same in each version.
Some records are skipped by a reader: those of another type, without an ISSN, with an invalid date, and with an end
before the beginning (about 3, 1, 0.5 and 0.3 in a hundred)."""
import argparse
import random
import sys

COLUMNS = """publication_title print_identifier online_identifier date_first_issue_online
num_first_vol_online num_first_issue_online date_last_issue_online num_last_vol_online
num_last_issue_online title_url first_author title_id embargo_info coverage_depth notes
publisher_name publication_type date_monograph_published_print date_monograph_published_online
monograph_volume monograph_edition first_editor parent_publication_title_id
preceding_publication_title_id access_type""".split()
# The columns of a list whose rows differ in their ISSN alone.
PLAIN = ["publication_title", "print_identifier", "online_identifier", "date_first_issue_online",
         "num_first_vol_online", "date_last_issue_online", "num_last_vol_online", "title_url", "coverage_depth"]

HEADS = ["Journal of", "Annals of", "Archives of", "International Journal of", "European Journal of",
         "Advances in", "Studies in", "Review of", "Bulletin of", "Proceedings of the Society for",
         "Acta", "Transactions on", "Quarterly Journal of", "British Journal of", "Letters in",
         "Zeitschrift für", "Revue française de", "Revista española de", "Annales de", "Rivista di"]
FIELDS = ["Applied Physics", "Molecular Biology", "Organic Chemistry", "Number Theory", "Cardiology",
          "Medieval History", "Comparative Literature", "Soil Science", "Ecology", "Linguistics",
          "Computational Mechanics", "Clinical Nursing", "Public Health", "Economic Geography",
          "Pharmacology", "Materials Science", "Social Psychology", "Musicology", "Law & Society",
          "Oceanography", "Veterinary Medicine", "Philosophy", "Education", "Neuroscience",
          "Crystallography", "Information Systems", "Plant Pathology", "Urban Planning",
          "Nuclear Engineering", "Statistics", "Dermatology", "Agricultural Policy"]
TAILS = ["", "", "", "", " and Technology", " in Europe", ": Series A", ": Series B", " Research",
         " (Online)", " & Practice", " Letters", ": An International Forum", " Today", " \"New Series\""]
OTHER = ["Журнал экспериментальной и теоретической физики", "Вестник древней истории", "物理学报",
         "日本化学会誌", "中国科学：数学", "Český časopis historický", "Ελληνική Επιθεώρηση", "Ärztliche Praxis",
         "Études rurales", "Tíðarit um lög", "한국통계학회지", "مجلة العلوم", "Łódzkie Studia Etnograficzne",
         "Nordisk tidsskrift for språk – ny rekke", "Ciência e Saúde"]
PUBLISHERS = ["Aldgate Press", "Blackfriars Scientific", "Cordoba Académica", "Dunes & Sons",
              "Éditions du Lac", "Fjord Forlag", "Granite University Press", "Harbour Society"]
HOSTS = ["journals.aldgate.example", "link.blackfriars.example", "www.granite-up.example"]
EMBARGOES = ["P1Y", "P6M", "P2Y", "R10Y", "P365D", "R1Y;P30D"]
NOTES = ["Hybrid", "Gaps in 1990s", "Vols. 3–7 scanned", "Author’s copies only", "Moved to new platform"]


class Maker:
    """Makes the rows of one title after another."""

    def __init__(self, seed):
        self.random = random.Random(seed).random
        self.made = 0

    def within(self, low, high):
        return low + int(self.random() * (high - low + 1))

    def one(self, items):
        return items[int(self.random() * len(items))]

    def chance(self, share):
        return self.random() < share

    def issn(self, serial, is_right):
        """Returns an ISSN of a number, mostly with its hyphen, or one with a wrong check character."""
        digits = f"{serial % 10_000_000:07}"
        check = -sum(int(digit) * weight for digit, weight in zip(digits, range(8, 1, -1))) % 11
        if not is_right:
            check = (check + self.within(1, 9)) % 11
        end = self.one("XXXXXXXXXx") if check == 10 else str(check)
        text = digits[:4] + ("" if self.chance(0.08) else "-") + digits[4:] + end
        return " " + text if self.chance(0.005) else text

    def identifiers(self, serial):
        """Returns the print and the online ISSN of a title. It may lack one of them, or have wrong ones."""
        is_right, kind = not self.chance(0.01), self.random()
        on_paper = "" if 0.12 <= kind < 0.22 else self.issn(serial, is_right)
        online = "" if kind < 0.12 else self.issn(serial * 3 + 1, is_right and not 0.22 <= kind < 0.23)
        return on_paper, online

    def title(self):
        if self.chance(0.08):
            return self.one(OTHER) + ("" if self.chance(0.5) else f" {self.within(1, 99)}")
        text = f"{self.one(HEADS)} {self.one(FIELDS)}{self.one(TAILS)}"
        return f"{text} and {self.one(FIELDS)}" if self.chance(0.35) else text

    def date(self, year):
        kind = self.random()
        if kind < 0.3:
            return f"{year:04}"
        month = f"{year:04}-{self.within(1, 12):02}"
        return month if kind < 0.45 else f"{month}-{self.within(1, 28):02}"

    def wrong_date(self, year):
        forms = ["{}-13", "{}-02-30", "{}0115", "c{}", "{}-1-5", "present", "{}/05"]
        return self.one(forms).format(f"{year:04}")

    def dates(self, year, last, is_open):
        """Returns the first and the last date of a coverage, sometimes an invalid one or the two reversed."""
        begins = self.date(year) if not self.chance(0.01) else ""
        ends = "" if is_open else self.date(last)
        kind = self.random()
        if kind < 0.004:
            return self.wrong_date(year), ends
        if kind < 0.006 and ends:
            return begins, self.wrong_date(last)
        return (f"{last + 1:04}", f"{last:04}-06-30") if 0.006 <= kind < 0.012 and ends else (begins, ends)

    def volumes(self, first, last):
        """Returns the first and the last volume, sometimes in another form or reversed."""
        kind = self.random()
        if kind < 0.015:
            return "XIV" if kind < 0.01 else f"{first}-{first + 1}", last
        return (last, str(first)) if kind < 0.02 and last else (str(first), last)

    def coverage(self, year, last, volume, is_open):
        """Returns the fields of a coverage."""
        begins, ends = self.dates(year, last, is_open)
        fields = {"date_first_issue_online": begins, "date_last_issue_online": ends}
        if not self.chance(0.25):
            first, final = self.volumes(volume, "" if is_open else str(volume + last - year))
            fields.update(num_first_vol_online=first, num_last_vol_online=final,
                          num_first_issue_online=str(self.within(1, 4)))
        if is_open and self.chance(0.3):
            fields["embargo_info"] = self.one(EMBARGOES)
        if self.chance(0.1):
            fields["notes"] = self.one(NOTES)
        if self.chance(0.12):
            fields["preceding_publication_title_id"] = f"j{self.within(0, 9_999_999):07}"
        return fields

    def rows_of_title(self):
        """Returns the rows of a title: mostly one, sometimes several coverages with gaps."""
        self.made += 1
        serial = (self.made * 7_654_321 + 1_234_567) % 10_000_000
        slug = f"j{serial:07}"
        fields = {"publication_title": self.title(), "title_url": f"https://{self.one(HOSTS)}/loi/{slug}",
                  "title_id": slug.upper() if self.chance(0.5) else str(serial), "publisher_name": self.one(PUBLISHERS),
                  "access_type": "F" if self.chance(0.15) else "P",
                  "coverage_depth": "fulltext" if self.chance(0.9) else self.one(["abstracts", "selected articles"])}
        fields["print_identifier"], fields["online_identifier"] = self.identifiers(serial)
        if self.chance(0.03):
            return [row_of({**fields, "publication_type": "database"})]
        fields["publication_type"] = self.one(["serial"] * 8 + ["Serial", ""])
        year, volume, rows = self.within(1895, 1985), self.within(1, 60), []
        count = self.within(2, 4) if self.chance(0.1) else 1
        for at in range(count):
            last = year + self.within(1, 9)
            is_open = at == count - 1 and self.chance(0.75)
            rows.append(row_of({**fields, **self.coverage(year, last, volume, is_open)}))
            volume += last - year + self.within(1, 5)
            year = last + self.within(1, 3)
        return rows


def row_of(fields):
    """Returns a row with these fields, and the others empty."""
    return [fields.get(label, "") for label in COLUMNS]


def last_row(length):
    """Returns a row of so many bytes with its line end."""
    fields = {"publication_title": "Closing Title", "print_identifier": "2434-561X", "date_first_issue_online": "1995",
              "title_url": "https://www.granite-up.example/loi/last"}
    room = length - len("\t".join(row_of(fields))) - 1
    return ("\t".join(row_of({**fields, "notes": "n" * room})) + "\n").encode()


def lines(size, seed):
    """Yields the lines of a list of so many bytes. The last row fills what the others leave, at least 400 bytes."""
    head = ("\t".join(COLUMNS) + "\n").encode()
    yield head
    left, maker = size - len(head), Maker(seed)
    while True:
        for row in maker.rows_of_title():
            line = ("\t".join(row) + "\n").encode()
            if left < len(line) + 400:
                yield last_row(left)
                return
            left -= len(line)
            yield line


def plain_issn(number):
    """Returns the ISSN of a number of seven digits (ISO 3297)."""
    digits = f"{number:07}"
    check = -sum(int(digit) * (8 - at) for at, digit in enumerate(digits)) % 11
    return f"{digits[:4]}-{digits[4:]}{'X' if check == 10 else check}"


def plain_list(numbers):
    """Returns a list with a row for each of these numbers: an ISSN for each."""
    rows = [f"Journal {at}\t{plain_issn(at)}\t\t1990\t1\t\t\thttps://a.example/{at}\tfulltext\n" for at in numbers]
    return ("\t".join(PLAIN) + "\n" + "".join(rows)).encode()


def main():
    parser = argparse.ArgumentParser(description=__doc__, formatter_class=argparse.RawDescriptionHelpFormatter)
    parser.add_argument("--bytes", type=int, required=True, metavar="B", help="the size, at least 2000")
    parser.add_argument("--seed", type=int, default=1, metavar="S")
    args = parser.parse_args()
    if args.bytes < 2000:
        parser.error("--bytes: at least 2000")
    sys.stdout.buffer.writelines(lines(args.bytes, args.seed))


if __name__ == "__main__":
    main()
