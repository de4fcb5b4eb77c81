"""Prints a script of 16 nodes to standard output, and the transcript that it must have to file descriptor 3.

Each node receives the bytes of a file one by one, each a fixed number of places after the last. None of these numbers
has a divisor in common with 205 or 243, the lengths of the two files, so every byte arrives once."""
import os
import sys

STRIDES = [1, 2, 4, 7, 8, 11, 13, 14, 16, 17, 19, 22, 23, 26, 28, 29]
HEADER = ("publication_title\\tprint_identifier\\tonline_identifier\\tdate_first_issue_online\\tnum_first_vol_online"
          "\\tdate_last_issue_online\\tnum_last_vol_online\\ttitle_url\\n")
ACTA = "Acta\\t2434-561X\\t\\t1995\\t1\\t2001-06-30\\t7\\thttp://a.example/\\n"
BETA = "Beta\\t\\t0317-8471\\t\\t\\t\\t\\thttp://b.example/\\n"
FILES = [
    ("Acme_Global_All_2024-01-01.txt", HEADER + ACTA, 205),
    ("Acme_Global_All_2024-02-01.txt", HEADER + ACTA + BETA, 243),
]


def byte_delivered(node, name, first, missing):
    """The line that delivers one byte to a node, and the printed line, with so many bytes missing then."""
    piece = f"{name} {first} 1"
    answer = f"stored missing {missing}" if missing else "activated"
    if first % 40 == 0:
        return [(f"restart {node}", "restarted"), (f"deliver {node} {piece}", answer)]
    if first % 40 == 1:
        return [(f"stop-before {node} deliver {piece}", "stopped"), (f"deliver {node} {piece}", answer)]
    if first % 40 == 2:
        return [(f"stop-after {node} deliver {piece}", "stopped"), (f"deliver {node} {piece}", "repeated")]
    return [(f"deliver {node} {piece}", answer)]


def main():
    told = [("nodes 16", None), *((f"publish {name} {text}", "published") for name, text, _ in FILES)]
    nodes = range(1, 17)
    for name, _, size in FILES:
        told += [(f"offer {node} {name}", "noted") for node in nodes]
        for turn in range(size):
            for node, stride in zip(nodes, STRIDES):
                told += byte_delivered(node, name, turn * stride % size, size - turn - 1)
        for node in nodes:
            told.append((f"report {node} Acme_Global_All", f"active {name}"))
            told.append((f"ask {node} Acme_Global_All rft.issn=2434561x&rft.date=1996",
                         f"release {name} hits 1\n2\tinside\tActa\thttp://a.example/\t\t\t\t"))
    sys.stdout.write("".join(f"{line}\n" for line, _ in told))
    with os.fdopen(3, "w") as transcript:
        transcript.write("".join(f"{line}\n" for _, line in told if line))


if __name__ == "__main__":
    main()
