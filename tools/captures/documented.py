"""docs/FRAMES.md, compared with what the dissector shows: its tables, its examples and its lines of captures."""
import os
import re

import record
from dissected import ROOT

ROW = re.compile(r"\| (\d+) \| (\d+)( each| to \d+)? \| [^|]+ \| `([a-z_.]+)` \|")
BYTES = re.compile(r"    ((?:[0-9A-F]{2} )+[0-9A-F]{2})")
SHOWN = re.compile(r"    (\d+ +\d+\.\d{6} .*)")


def page():
    with open(os.path.join(ROOT, "docs", "FRAMES.md")) as file:
        return file.read().splitlines()


def rows():
    """Each field of the tables, where it stands and its size; of contents only where."""
    found = [ROW.match(line) for line in page()]
    return sorted((row[4], int(row[1]), None if row[3] and row[3] != " each" else int(row[2])) for row in found if row)


def examples():
    """Each frame, and the logger's line below it."""
    lines = page()
    return [(bytes.fromhex(found[1]), lines[place + 1].strip())
            for place, found in enumerate(map(BYTES.fullmatch, lines)) if found]


def strange_lines():
    """Lines of a capture that stand on the page and in no stored text."""
    stored = set()
    for name in record.CAPTURES:
        with open(record.path(name, "txt")) as text:
            stored |= {line.strip() for line in text}
    shown = [found[1] for found in map(SHOWN.fullmatch, page()) if found]
    return [line for line in shown if line not in stored], len(shown)
