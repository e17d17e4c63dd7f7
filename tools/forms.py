"""Counts the places in src/ that are written in an older form, by kind of place.

    python3 tools/forms.py            the counts of this checkout
    python3 tools/forms.py -v         each place with its line
    python3 tools/forms.py DIR        another tree with a folder crates/

A place is found by its text, so a row is a place to look at; docs/DESIGN-PASS.md says which of them stay, and why.
Tests are left out, and so are comments and contracts.
"""

import re
import sys
from pathlib import Path

# point, kind of place, pattern of a line, and how many neighbouring lines are one place (none: each line is one)
LINES = [
    (1, "an enum told as a number, arm by arm", r"^ +\w+::\w+ => (\d+|b'.'|'.'),", 2),
    (1, "an enum made of a number, arm by arm", r"^ +\d+(\.\.=\d+)? => (Some\()?(\w+::\w+|'.')", 2),
    (1, "numbers of refusals matched", r"^ +\d+ => f\.write_str", 1),
    (1, "numbers of a kind taken from a word", r"^ +match (w >> 29|word / 0x2000_0000|bits::<29, 3>\(w\)) \{", 0),
    (1, "an own enum of a refusal and a value", r"^    Refused\(", 0),
    (1, "a flag or a kind with a value beside it", r"^    pub (yes|inside|marked|kind): ", 0),
    (1, "a number for nothing", r"_ => u\d+::MAX,", 0),
    (1, "Option or Result taken apart and put together", r"^ +(Some|Ok)\(\w+\) => (Some|Ok)\(|^ +None => (None|Err\()|^ +Err\((\w+)\) => (None|Err\()|^ +None => (false|true|\"\?\"|Stage::)", 1),
    (3, "a counted index", r"^ +('\w+: )?for (?!_ )\w+ in ([a-z]\w*|\d+)\.\.=?[^ ]* \{|^ +while \w+ > 0 \{", 0),
    (3, "an index beside the item", r"for \(\w+, \w+\) in .*\.enumerate\(\)", 0),
    (3, "a loop under a number that it does not need", r"for _ in 0\.\.(u64::MAX|256) \{", 0),
    (4, "a text told by a chain of comparisons", r"^ +(\} else )?if \w+ == \"", 1),
    (4, "an order or an equality by hand", r"^ +if \*?(self|a\[i\]|b\[i\]) < |fn (same|stores|one_later|kind_number)\b", 1),
    (4, "fields let go one by one in a pattern", r"\b\w+: _[,} ]", 1),
    (5, "the memory, the session and the stage side by side", r"^    stage: &mut Stage,|memory: &mut Memory<R>, .*stage: &mut Stage", 0),
    (5, "three clauses of one outcome", r"^ +ensures after \{ .*\)\.memory \}", 0),
    (5, "a moment and the labels side by side", r"\bm: &Moment, labels: &\[String\]|^    m: &Moment,$", 0),
    (5, "a board and its items side by side", r"board: &mut Board<R>, items: &\[T\]|^ +board: &mut Board<R>,$", 0),
    (6, "a place in a text beside the text", r"^    at: usize,$", 0),
    (6, "an array with a length beside it", r"^    pub\(super\) len: usize", 0),
    (6, "an index guarded by the array's length as a number", r"if session (<|>=) 8 \{", 0),
    (6, "lists that run side by side", r"^    (pub )?labels: Vec<String>", 0),
    (7, "a step chosen by a number or a mode", r"^ +match (numbers\.next\(\) % 10|mode|act|line\.act|at) \{|^ +match \(\*(turn\.)?stage, kind\) \{", 0),
]


def without_tests(text):
    at = text.find("#[cfg(test)]")
    return text if at < 0 else text[:at]


def code_lines(text):
    for number, line in enumerate(without_tests(text).split("\n"), 1):
        if not line.lstrip().startswith("//") and not line.lstrip().startswith("ghost use"):
            yield number, line


def places(text, pattern, joined):
    found = [(number, line.strip()) for number, line in code_lines(text) if re.search(pattern, line)]
    if not joined:
        return found
    runs = []
    for number, line in found:
        if runs and number - runs[-1][-1][0] <= 2:
            runs[-1].append((number, line))
        else:
            runs.append([(number, line)])
    return [run[0] for run in runs if len(run) >= joined]


def option_like(text):
    """Enums of two cases, one of them with nothing in it."""
    for found in re.finditer(r"enum (\w+)[^{;]*\{\n(.*?)\n\}", text, re.S):
        cases = re.findall(r"^    ([A-Z]\w*)(.*)$", found.group(2), re.M)
        bare = [name for name, rest in cases if rest.strip() in (",", "")]
        if len(cases) == 2 and len(bare) == 1:
            yield text[: found.start()].count("\n") + 1, found.group(1)


def functions(text):
    """Each function with its body, contracts and comments left out."""
    lines = [line for _, line in code_lines(text)]
    starts = [i for i, line in enumerate(lines) if re.match(r" *(pub(\([a-z]+\))? )?fn \w+", line)]
    for i in starts:
        name = re.search(r"fn (\w+)", lines[i]).group(1)
        depth, body, seen = 0, [], False
        for line in lines[i:]:
            if re.match(r" +(requires|ensures)\b", line):
                continue
            if not seen and line.rstrip().endswith(";"):
                break
            depth += line.count("{") - line.count("}")
            seen = seen or "{" in line
            body.append(line.strip())
            if seen and depth <= 0:
                break
        if seen:
            yield i + 1, name, body


def shape(name, body):
    """The body with names of types, texts and numbers out, and equal neighbours once."""
    joined = " ".join(body)
    joined = joined[joined.index("{"):]
    joined = re.sub(r'"[^"]*"', "T", joined)
    joined = re.sub(r"\b[A-Z]\w*(::[A-Z]\w*)*", "K", joined)
    joined = re.sub(r"\b\d\w*\b", "N", joined)
    parts = re.split(r"(?<=[,;{}]) ", joined)
    kept = [part for i, part in enumerate(parts) if i == 0 or part != parts[i - 1]]
    again = " ".join(kept)
    return re.sub(r"(\} else if \w+ == T \{ K\(K\) )+", r"\1", again)


def twins(sources):
    """Functions whose bodies differ only in types, texts and numbers, from two lines of code on."""
    groups = {}
    for path, text in sources:
        for number, name, body in functions(text):
            if len(body) >= 4:
                groups.setdefault(shape(name, body), []).append((path, number, name))
    return [group for group in groups.values() if len(group) > 1]


def main():
    words = [word for word in sys.argv[1:] if word != "-v"]
    root = Path(words[0] if words else ".")
    sources = [(path, path.read_text()) for path in sorted(root.glob("crates/*/src/**/*.rt"))]
    for point, what, pattern, joined in LINES:
        found = [(path, number, line) for path, text in sources for number, line in places(text, pattern, joined)]
        print(f"{point}  {len(found):4}  {what}")
        if "-v" in sys.argv:
            for path, number, line in found:
                print(f"           {path.relative_to(root)}:{number}: {line}")
    found = [(path, number, name) for path, text in sources for number, name in option_like(without_tests(text))]
    print(f"1  {len(found):4}  enums of two cases, one of them empty")
    if "-v" in sys.argv:
        for path, number, name in found:
            print(f"           {path.relative_to(root)}:{number}: {name}")
    found = twins(sources)
    print(f"2  {sum(len(group) for group in found):4}  functions alike but for types, texts and numbers, in {len(found)} groups")
    if "-v" in sys.argv:
        for group in found:
            print("           " + ", ".join(f"{path.relative_to(root)}:{name}" for path, _, name in group))
    files = [path for path in root.glob("crates/*/proofs/**/*.antt") if path.name in ("Answers.antt", "Invariants.antt", "Proof.antt")]
    lines = sum(len(path.read_text().split("\n")) - 1 for path in files)
    print(f"8  {len(files):4}  files of answers and invariants, {lines} lines")


main()
