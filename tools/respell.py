#!/usr/bin/env python3
"""Spells the repository's own definitions and lemmas as the language now does: words in snake case.

usage: tools/respell.py            at the top of the checkout, once, after the kit's port.py

In crates/ it turns each word of a definition, a lemma, a field or a variable of .antt files, and of the clauses and
comments of .rt files, from `tokenFollows` to `token_follows`. A dash between the words of a lemma stays; between those of
a field of specs/ it goes. The same names are turned in README.md and docs/. Strings stay, and so do the names of code,
which were in snake case before.
"""
import glob
import os
import re
import sys

# Lemmas that the kit's scripts gave an underscore, as names of the library: a definition has that name now.
LEMMAS = {
    "held_after": ("crates/ring/proofs/seen/VisitMarks.antt", "held-after"),
    "kept_by": ("crates/ring/proofs/seen/HistorySeen.antt", "kept-by"),
    "first_frame": ("crates/ring/proofs/runs/Start.antt", "first-frame"),
}
EVERYWHERE = {"all_pass": "all-pass", "to_end": "to-end", "by_kind": "by-kind"}

# Fields of specs/ that had a dash.
FIELDS = {
    "one-order": "one_order",
    "safe-first": "safe_first",
    "newest-accepted": "newest_accepted",
    "records-whole": "records_whole",
    "whole-record": "whole_record",
    "own-or-nobody": "own_or_nobody",
}
# Two more, which would have the names of the accounts `over_structs` and `over_bytes`.
ACCOUNTS = {"over-structs": "kept_over_structs", "over-bytes": "kept_over_bytes"}
ACCOUNT_FILES = ("crates/ring/specs/Promise.antt", "crates/ring/proofs/runs/Promise.antt")

# A field that would have the name of the definition that it speaks of. A lemma of that name keeps its dash.
OF_THIS_RING = ("this-ring", "of_this_ring")
LEMMA_FILE = "crates/visit/proofs/TokenLaws.antt"

MARKS = "crates/ring/proofs/seen/VisitMarks.antt"

# A definition that the kit's scripts gave another name than its uses.
GARBLED = [("crates/record/specs/Layout.antt", "field_own", "own_at")]

HUMP = re.compile(r"(?<=[a-z0-9'₀-₉])([A-Z])")
RUN = re.compile(r"(?<![\w'])[a-z][\w'₀-₉]*")
STRING = re.compile(r'"(?:\\.|[^"\\])*"|b\'(?:\\.|[^\'\\])\'')
NAMES_IN_PAGES = set()


def snake(word):
    return HUMP.sub(lambda m: "_" + m.group(1).lower(), word)


def turned(word):
    """A word of one name: humps, and no underscore before a capital, which is the kit's own spelling."""
    return word if re.search(r"_[A-Z]", word) else snake(word)


def whole(name):
    """A name with dashes, by itself: not a part of a longer one."""
    return re.compile(r"(?<![\w'₀-₉-])" + re.escape(name) + r"(?![\w'₀-₉-])")


def words(text):
    def turn(match):
        new = turned(match.group())
        if new != match.group():
            NAMES_IN_PAGES.add(match.group())
        return new

    return RUN.sub(turn, text)


def outside_strings(text):
    out, at = [], 0
    for match in STRING.finditer(text):
        out += [words(text[at : match.start()]), match.group()]
        at = match.end()
    return "".join(out + [words(text[at:])])


def antt(path, text):
    for name, (where, lemma) in LEMMAS.items():
        if path == where:
            text = whole(name).sub(lemma, text)
    if "/proofs/" in path:
        for name, lemma in EVERYWHERE.items():
            text = whole(name).sub(lemma, text)
    for name, field in FIELDS.items():
        # A lemma of ring has the dash: it says that the definition of `ordering` is the one of `visit`.
        if name == "own-or-nobody" and path == MARKS:
            text = text.replace("visit." + name, "visit." + field)
        else:
            text = whole(name).sub(field, text)
    if path != LEMMA_FILE and not path.endswith("/Proof.antt"):
        text = whole(OF_THIS_RING[0]).sub(OF_THIS_RING[1], text)
    for path_there, name, right in GARBLED:
        if path == path_there:
            text = whole(name).sub(right, text)
    if path in ACCOUNT_FILES:
        for name, field in ACCOUNTS.items():
            text = whole(name).sub(field, text)
    return outside_strings(text)


def page(text):
    def turn(match):
        return turned(match.group()) if match.group() in NAMES_IN_PAGES else match.group()

    return RUN.sub(turn, text.replace("′", "'").replace("getD", "get_or"))


def rewrite(path, turn):
    with open(path, encoding="utf-8") as f:
        old = f.read()
    new = turn(old)
    if new != old:
        with open(path, "w", encoding="utf-8") as f:
            f.write(new)
    return new != old


def main():
    if not os.path.isfile("crates.txt"):
        sys.exit("respell: no crates.txt here: run it at the top of the checkout")
    count = 0
    for path in sorted(glob.glob("crates/**/*.antt", recursive=True)):
        count += rewrite(path, lambda text: antt(path, text))
    for path in sorted(glob.glob("crates/*/src/**/*.rt", recursive=True)):
        count += rewrite(path, outside_strings)
    for path in ["README.md"] + sorted(glob.glob("docs/**/*.md", recursive=True)):
        count += rewrite(path, page)
    print("respell: %d files changed, %d names" % (count, len(NAMES_IN_PAGES)))


main()
