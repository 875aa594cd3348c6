#!/usr/bin/env python3
"""Spells the must-fail edits of definitions as the definitions are spelled now; each keeps its name and its wrong meaning.

usage: tools/respell_edits.py      at the top of the checkout, once, after tools/respell.py
"""
import re

EDITS = [
    "frames/must-fail/backlog_one_place_off.edit",
    "frames/must-fail/sender_one_place_off.edit",
    "ordering/must-fail/new_past_the_window.edit",
    "ordering/must-fail/token_number_forgotten.edit",
    "record/must-fail/ahead_counted.edit",
    "record/must-fail/count_left_as_it_was.edit",
    "record/must-fail/delivered_counted.edit",
    "record/must-fail/field_one_byte_off.edit",
    "station/must-fail/resent_token_taken.edit",
    "visit/must-fail/own_part_not_taken_off.edit",
    "visit/must-fail/raised_while_another_blocks.edit",
    "visit/must-fail/safe_after_one_forwarding.edit",
    "visit/must-fail/share_rounded_up.edit",
]

HUMP = re.compile(r"(?<=[a-z0-9'])([A-Z])")
RUN = re.compile(r"(?<![\w'])[a-z][\w']*")


def spelled(line, of_specs):
    if not of_specs:
        return line
    line = line.replace("′", "'").replace("·record·specs.specs.", ".record.specs.")
    line = RUN.sub(lambda m: HUMP.sub(lambda h: "_" + h.group(1).lower(), m.group()), line)
    # A projection is written tight: of an application it stands behind a bracket.
    line = re.sub(r"\((\w+) ((?:\.\w+ ?)+)\)", lambda m: m.group(1) + m.group(2).replace(" ", ""), line)
    line = re.sub(r"\((log|turn) v ((?:\.\w+ ?)*\.\w+)\)", lambda m: "(%s v)%s" % (m.group(1), m.group(2).replace(" ", "")), line)
    line = re.sub(r"\b(log|turn) v ((?:\.\w+ ?)*\.\w+)", lambda m: "(%s v)%s" % (m.group(1), m.group(2).replace(" ", "")), line)
    line = re.sub(r"\b(\w+) ((?:\.\w+ )*\.\w+)", lambda m: m.group(1) + m.group(2).replace(" ", ""), line)
    return line


def main():
    for name in EDITS:
        path = "crates/" + name
        with open(path, encoding="utf-8") as f:
            lines = f.read().split("\n")
        out, of_specs = [], False
        for line in lines:
            if line.startswith("file: "):
                of_specs = line.startswith("file: specs/")
            head, _, text = line.partition(": ")
            out.append(head + ": " + spelled(text, of_specs) if head in ("old", "new") else line)
        with open(path, "w", encoding="utf-8") as f:
            f.write("\n".join(out))


main()
