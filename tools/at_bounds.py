#!/usr/bin/env python3
"""In the clauses of generic functions, names a bound's ghost members through its type: R.model, R.state, T.order, T.value.

usage: python3 tools/at_bounds.py [CRATE ..]    at the top of the repository, once, after tools/respell.py
"""

import re
import sys
from pathlib import Path

from respell import block_end

MEMBERS = {"model": "R.model", "state": "R.state", "order": "T.order", "value": "T.value"}
TRAITS = {"crates/reclaim/src/reclaimer.rt", "crates/items/src/order.rt"}


def turned(clause):
    return re.sub(r"(?<![\w.«-])(model|state|order|value)(?![\w-])", lambda m: MEMBERS[m.group(1)], clause)


def through(text, start):
    out, at = [], start
    for m in re.finditer(r"\b(?:requires|ensures)\b", text):
        if m.start() < at or "//" in text[text.rfind("\n", 0, m.start()) + 1 : m.start()]:
            continue
        brace = text.find("{", m.end())
        end = block_end(text, brace)
        out += [text[at:brace], turned(text[brace:end])]
        at = end
    return text[:start] + "".join(out) + text[at:]


def main(names):
    for path in sorted(Path("crates").glob("*/src/**/*.rt")):
        if names and path.parts[1] not in names:
            continue
        text = path.read_text(encoding="utf-8")
        if not re.search(r"\b[RT]: (?:Reclaimer|ItemOrder)\b", text):
            continue
        start = text.find("\n}\n") if path.as_posix() in TRAITS else 0
        new = through(text, start)
        if new != text:
            path.write_text(new, encoding="utf-8")


main(sys.argv[1:])
