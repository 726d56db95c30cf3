#!/usr/bin/env python3
"""Lists and counts the places in src/ (and, for the last point, in proofs/) that docs/DESIGN-PASS.md counts.

    tools/places.py            the counts, by point and pattern
    tools/places.py 3          the places of point 3
    tools/places.py 3 --all    those of its tests too

A place is what a pattern finds: whether it is one to change is read from it.
"""
import re
import sys
from collections import defaultdict
from pathlib import Path

ROOT = Path(__file__).resolve().parents[1]
TEST_CRATES = {"coding_trials", "trials", "polygon_trials", "record_trials", "call_cases"}

# A name, the point it belongs to, and what finds it in the text of a file.
PATTERNS = [
    (1, "own enum", r"^\s*(?:pub(?:\(crate\))? )?enum \w+"),
    (1, "flag as a result", r"-> bool\b"),
    (1, "flag as a field or parameter", r"^\s*(?:pub(?:\(crate\))? )?\w+: bool,|\(\w+: bool|, \w+: bool"),
    (1, "number as a field or parameter for a kind, a refusal or a direction", r"\b(?:kind|refusal|direction|d|number): u(?:8|16)\b"),
    (1, "number as a result", r"\) -> (?:u8|u16|i32)\b"),
    (1, "None or Err passed on by hand", r"None => (?:None|return None)|Err\(_\) => None|\belse \{\s*return (?:None|Err\(\w+\(\w+\)\));\s*\}"),
    (1, "Option or Result taken apart for a flag or a value", r"None => (?:true|false|\w+),|Err\(_\) => (?:true|false)|Ok\(\(?\w*\)?\) => (?:0|true|false)"),
    (3, "loop over a range", r"\bfor \w+ in [^{\n]*\.\."),
    (3, "while", r"\bwhile "),
    (4, "fields compared one by one", r"\.(\w+) == (?:\w+)\.\1 &&|p\.col == col"),
    (4, "conversion by a method", r"fn (?:from_\w+|number|to_\w+)\("),
    (4, "impl of a comparison, a copy or a print", r"^impl.*\b(?:PartialEq|Eq|PartialOrd|Ord|Clone|Copy|Debug|Display|From|TryFrom)(?:<[^>]*>)? for"),
    (4, "order by a method", r"fn (?:is_)?above\("),
    (6, "array in a struct or a parameter", r"^\s*(?:pub(?:\(crate\))? )?\w+: (?:&mut )?\[\w+(?:<[^\]]*>)?; \w+\]"),
    (6, "length, count or position beside", r"^\s*(?:pub(?:\(crate\))? )?(?:len|count|vertices|seen|at|from): u(?:8|16|size),"),
    (6, "local array", r"= \[[^\]]*; (?:256|\w*ROOM|MOST_BYTES)\]"),
    (7, "match on what to run", r"match \*?(?:ask|goal|call|command|word|self) \{"),
    (7, "dyn, function pointer or closure bound", r"\bdyn \w|\bfn\(|\bFn(?:Mut|Once)?\("),
]


def is_test(path):
    crate = path.relative_to(ROOT / "crates").parts[0]
    return crate in TEST_CRATES or path.name in ("tests.rt", "efforts.rt")


def sources():
    return sorted((ROOT / "crates").glob("*/src/**/*.rt"))


def place(path, text, at):
    line = text.count("\n", 0, at) + 1
    return f"{path.relative_to(ROOT / 'crates')}:{line}: {text.splitlines()[line - 1].strip()}"


def by_patterns():
    """The places of each pattern, as (in a test, place)."""
    found = defaultdict(list)
    for path in sources():
        text = path.read_text()
        for point, name, pattern in PATTERNS:
            for hit in re.finditer(pattern, text, re.M):
                at = hit.start() + len(hit.group(0)) - len(hit.group(0).lstrip())
                found[point, name].append((is_test(path), place(path, text, at)))
    return found


FUNCTION = re.compile(r"^\s*(?:pub(?:\(crate\))? )?(?:extern \"C\" )?fn (\w+)(?:<[^(]*>)?\(([^{]*?)\)(?: -> [^\n{]*)?(?:\n((?:\s*(?:requires|ensures)[^\n]*\n)*))?", re.M)


def functions():
    for path in sources():
        text = path.read_text()
        for hit in FUNCTION.finditer(text):
            parameters = re.findall(r"(\w+): ([^,\n]+(?:<[^>]*>)?)", hit.group(2))
            yield path, text, hit, parameters


def twins():
    """Functions and types of one name in several places."""
    named = defaultdict(list)
    for path, text, hit, _ in functions():
        if not re.search(r"^\s*#\[test\]", text[: hit.start()].rsplit("\n\n", 1)[-1], re.M):
            named["fn " + hit.group(1)].append((is_test(path), place(path, text, hit.start(1))))
    for path in sources():
        text = path.read_text()
        for hit in re.finditer(r"^\s*(?:pub(?:\(crate\))? )?(struct|enum|const|trait) (\w+)", text, re.M):
            named[hit.group(1) + " " + hit.group(2)].append((is_test(path), place(path, text, hit.start(1))))
    found = []
    for name, places in named.items():
        if len(places) > 1:
            found += places
    return found


def together():
    """Pairs of parameters that three or more functions take, and clauses that three or more functions repeat."""
    pairs, clauses = defaultdict(list), defaultdict(list)
    for path, text, hit, parameters in functions():
        where = (is_test(path), place(path, text, hit.start(1)))
        names = [f"{n}: {t.strip()}" for n, t in parameters]
        for i, first in enumerate(names):
            for second in names[i + 1:]:
                pairs[first, second].append(where)
        for clause in re.findall(r"requires \w*\s*\{ (.*) \}\n", hit.group(3) or ""):
            for part in re.split(r" × ", clause):
                shape = re.sub(r"\b\w+\.(?:now|old|entry)\b", "_", part.strip("() "))
                clauses[shape].append(where)
    return (
        {" , ".join(k): v for k, v in pairs.items() if len(v) >= 3},
        {k: v for k, v in clauses.items() if len(v) >= 3},
    )


def answers():
    counts = {}
    for crate in sorted(p.name for p in (ROOT / "crates").iterdir()):
        files = list((ROOT / "crates" / crate / "proofs").rglob("*.antt"))
        text = "".join(p.read_text() for p in files)
        given = "".join(p.read_text() for p in files if p.name == "Answers.antt")
        count = len(re.findall(r"^(?:abbrev )?(?:pub )?[\w-]+ : goal\.", given, re.M))
        if text:
            counts[crate] = (count, len(text.splitlines()))
    return counts


def main():
    args = [a for a in sys.argv[1:] if not a.startswith("--")]
    every = "--all" in sys.argv
    found = by_patterns()
    pairs, clauses = together()
    same = twins()

    def show(name, places):
        code = [p for test, p in places if not test]
        print(f"  {name}: {len(code)}, and in tests {len(places) - len(code)}")
        if args:
            for test, p in places:
                if every or not test:
                    print(f"      {p}")

    for point in [int(args[0])] if args else range(1, 9):
        print(f"point {point}")
        for (number, name), places in found.items():
            if number == point:
                show(name, places)
        if point == 2:
            show("function, type or constant with the name of another", same)
        if point == 5:
            for name, places in sorted(pairs.items()):
                show(f"together {name}", places)
            for name, places in sorted(clauses.items()):
                show(f"required {name}", places)
        if point == 8:
            given = answers()
            for crate, (count, lines) in given.items():
                print(f"  {crate}: {count} answers, {lines} lines of proofs")
            print(f"  all: {sum(c for c, _ in given.values())} answers, {sum(n for _, n in given.values())} lines of proofs")


if __name__ == "__main__":
    main()
