#!/usr/bin/env python3
"""Brings the repository's own definitions and lemmas to one spelling: words in snake case, facts and types in camel case.

usage: python3 tools/respell.py [--list]      at the top of the repository, once, after the toolchain's own port script

The names are collected from specs/ and proofs/: what a line declares (`name : ..`), fields and constructors among them.
A goal's answer is declared too, but its name belongs to the toolchain, and stays. They are replaced as whole names in
specs/ and proofs/, and in the clauses of src/, but not in comments and not in the text of the code.
"""

import collections
import os
import re
import sys

STOPS = "\\s(){}\\[\\].,;:λ→"
NAME = re.compile(f"[^{STOPS}]+")
DECLARED = re.compile(r"^\s*(?:(?:abbrev|unfoldable|pub|data|record|ruleset)\s+)*(" + f"[^{STOPS}]+" + r")(?:\s+[({].*?)?\s*:(?!=)")
# names that would fall together with another
APART = {"link-at": "link_of", "mark-at": "mark_of", "inList": "on_list"}
GENERATED = re.compile(r"^(returns|invariant|decreases|overflow|loop|slice-bounds|held-preserved|.*-requires)")


def files(root, ending):
    for crate in sorted(os.listdir(os.path.join(root, "crates"))):
        for part in ("specs", "proofs", "src"):
            for folder, dirs, names in os.walk(os.path.join(root, "crates", crate, part)):
                dirs.sort()
                for name in sorted(names):
                    if name.endswith(ending):
                        yield os.path.join(folder, name)


def read(path):
    with open(path, encoding="utf-8") as f:
        return f.read()


def declared(root):
    """Each own name, and whether it is ever a field or a constructor (its line stands inside a record or data)."""
    found = collections.defaultdict(set)
    for path in files(root, ".antt"):
        block = None
        for line in read(path).splitlines():
            text = line.strip()
            if not text or text.startswith("--") or text.startswith("use "):
                continue
            depth = len(line) - len(line.lstrip())
            if block is not None and depth <= block:
                block = None
            m = DECLARED.match(line)
            if m and " goal." not in line and "goal." not in line.split(":", 1)[1][:8]:
                found[m.group(1)].add("field" if block is not None else "name")
            if re.match(r"(pub )?(record|data) ", text):
                block = depth
    return found


def borrowed(root):
    """Names that the repository imports from elsewhere."""
    found = set()
    for path in files(root, ".antt"):
        for module, names in re.findall(r"(?m)^use ([^{\n]*)\.\{([^}]*)\}", read(path)):
            if re.match(r"Rattle\.std\b|borrow\b|native\b|mathlib\b|Prim\b|lib\b", module):
                found |= {name.strip().split(" as ")[0] for name in names.split(",")}
    return found


def aliases(root):
    """Names that an import gives: `.. as name`."""
    found = set()
    for ending in (".antt", ".rt"):
        for path in files(root, ending):
            for names in re.findall(r"(?m)^(?:ghost )?use [^{\n]*\.\{([^}]*)\}", read(path)):
                found |= {name.strip().split(" as ")[1] for name in names.split(",") if " as " in name}
    return found


def snake(word):
    word = re.sub(r"(?<=[a-z0-9])([A-Z])", lambda m: "_" + m.group(1).lower(), word)
    return word.replace("-", "_")


def camel(word):
    return "".join(part[:1].upper() + part[1:] for part in re.split(r"[-_]", word))


def spelled(name):
    if name in APART:
        return APART[name]
    if GENERATED.match(name) and "-" in name:
        return name
    if not re.fullmatch(r"[A-Za-z][A-Za-z0-9_'₀-₉-]*", name):
        return name
    if name[0].isupper():
        return camel(name) if re.search(r"[-_]", name) else name
    return snake(name) if "-" in name or re.search(r"[a-z0-9][A-Z]", name) else name


def replace(line, turned, fields):
    """The line with its names turned; a name after a dot only behind a module or as a field."""
    out, at = [], 0
    for m in NAME.finditer(line):
        name = m.group(0)
        new = turned.get(name)
        if new is None:
            continue
        before = line[: m.start()]
        if before.endswith("."):
            behind = re.search(f"([^{STOPS}]*)\\.$", before)
            module = behind and re.match(r"[A-Z]", behind.group(1)) and behind.group(1) not in ("A", "B", "C", "D")
            listed = before.endswith(".{")
            if not (module or listed or name in fields):
                continue
        out += [line[at : m.start()], new]
        at = m.end()
    return "".join(out) + line[at:]


def cut_comment(line, mark):
    at = line.find(mark)
    while at >= 0:
        if at == 0 or line[at - 1] in " \t":
            return line[:at], line[at:]
        at = line.find(mark, at + 1)
    return line, ""


def block_end(text, brace):
    """Behind the brace that closes the one at `brace`."""
    depth = 0
    for at in range(brace, len(text)):
        depth += (text[at] == "{") - (text[at] == "}")
        if depth == 0:
            return at + 1
    return len(text)


def in_clauses(text, turned, fields):
    """A source file: clauses and `ghost` items alone, each from its word to the brace that closes it."""
    out, at = [], 0
    for m in re.finditer(r"\b(?:requires|ensures|ghost)\b", text):
        if m.start() < at:
            continue
        line = text[text.rfind("\n", 0, m.start()) + 1 : m.start()]
        if "//" in line:
            continue
        brace = text.find("{", m.end())
        if brace < 0 or re.search(r"\b(?:fn|struct|impl|trait)\b", text[m.end() : brace]):
            continue
        end = block_end(text, brace)
        out += [text[at:brace], replace(text[brace:end], turned, fields)]
        at = end
    return "".join(out) + text[at:]


def main(argv):
    root = "."
    own = declared(root)
    for name in aliases(root):
        own[name].add("name")
    foreign = borrowed(root)
    turned = {name: spelled(name) for name in own if name not in foreign}
    turned = {name: new for name, new in turned.items() if name != new}
    fields = {name for name in turned if "field" in own[name]}
    used = collections.defaultdict(set)
    for ending in (".antt", ".rt"):
        for path in files(root, ending):
            for name in NAME.findall(read(path)):
                used[name].add(path)
    clashes = [(old, new) for old, new in sorted(turned.items()) if new in used and new not in turned]
    doubles = [new for new, n in collections.Counter(turned.values()).items() if n > 1]
    if "--list" in argv:
        for old, new in sorted(turned.items()):
            print(old, new, "field" if old in fields else "", "CLASH " + str(sorted(used[new])[:3]) if (old, new) in clashes else "", "DOUBLE" if new in doubles else "")
        return 0
    for path in files(root, ".antt"):
        text = read(path)
        lines = []
        for line in text.split("\n"):
            code, comment = cut_comment(line, "--")
            lines.append(replace(code, turned, fields) + comment)
        if "\n".join(lines) != text:
            with open(path, "w", encoding="utf-8") as f:
                f.write("\n".join(lines))
    for path in files(root, ".rt"):
        text = read(path)
        new = in_clauses(text, turned, fields)
        if new != text:
            with open(path, "w", encoding="utf-8") as f:
                f.write(new)
    print(f"{len(turned)} names respelled")
    return 0


if __name__ == "__main__":
    raise SystemExit(main(sys.argv[1:]))
