#!/usr/bin/env python3
"""Spells this repository's own definitions and lemmas as today's Rattle spells names.

    python3 tools/respell.py [FOLDER]

Run once at the top of a checkout, right after port.py. Words become snake case (`polygon-bits` is `polygon_bits`,
`verticesOf` is `vertices_of`), facts and types upper camel case (`Read-right` is `ReadRight`). Only names that
specs/ and proofs/ of this repository define, bind or give as an alias are respelled: in .antt files, in the ghost
lines and clauses of .rt files, and in edits of these. Names of std, names that Rattle makes of the code (a dash joins
their parts), functions of src/, strings and comments of src/ stay. Names that would fall together are printed, and
nothing is written then.
"""
import collections
import re
import subprocess
import sys
from pathlib import Path

ROOT = Path(sys.argv[1] if len(sys.argv) > 1 else ".").resolve()
# A name of antt: no space, bracket, or mark of its grammar in it.
NAME = re.compile(r"[^\s(){}\[\],.;:⌜⌝\"`]+")
FOREIGN = ("std", "anyhow", "core", "alloc")


def files():
    listed = subprocess.check_output(["git", "ls-files", "-co", "--exclude-standard", "crates", "tools"], cwd=ROOT, text=True)
    return [ROOT / name for name in listed.splitlines() if (ROOT / name).is_file() and name.endswith((".antt", ".rt", ".edit"))]


def respelled(name):
    parts = name.split("-")
    if name[0].isupper():
        return "".join(part[:1].upper() + part[1:] for part in parts)
    snake = "_".join(parts)
    return re.sub(r"(?<=[a-z0-9])([A-Z])(?=[a-z])", lambda m: "_" + m.group(1).lower(), snake)


def is_answer(path):
    return path.name in ("Answers.antt", "Invariants.antt", "Proof.antt")


def clauses(text):
    """The parts of a line that are antt: all of it in an .antt file."""
    return text.split("--")[0]


def own_names(paths):
    own, foreign, made, declared = set(), set(), set(), set()
    for path in paths:
        if path.suffix != ".antt":
            for line in path.read_text().splitlines() if path.suffix == ".rt" else []:
                if line.lstrip().startswith("ghost use"):
                    own.update(alias for alias in re.findall(r" as ([^\s,}]+)", line) if re.search(r"Rattle\.(?!std\.)", line))
            continue
        for line in path.read_text().splitlines():
            if line.startswith("use "):
                module = line[4:].split(".{")[0]
                crate = re.match(r"Rattle\.(\w+)\.", module)
                ours = crate and crate.group(1) not in FOREIGN
                for item in (re.findall(r"\{(.*)\}", line) or [""])[0].split(","):
                    name, _, alias = item.strip().partition(" as ")
                    if not ours:
                        foreign.add(name)
                    if alias:
                        own.add(alias)
                continue
            text = clauses(line)
            found = re.match(r"\s*(?:abbrev |unfoldable |where )*(?:pub )?([^\s:(){}]+) :(?: |$)", text)
            if found:
                if is_answer(path) and re.search(r": (?:goal|given)\.", text):
                    made.add(found.group(1))
                else:
                    own.add(found.group(1))
                    declared.add(found.group(1))
            own.update(re.findall(r"\blet ([^\s:=(){},]+)", text))
            own.update(re.findall(r"\b(?:record|data) ([A-Z][^\s:(){};]*)", text))
            for binders in re.findall(r"[({]([^(){}:;=,→]+) : ", text):
                own.update(binders.split())
            for binder in re.findall(r"λ ([^.]+)\.", text):
                own.update(NAME.findall(binder))
            head = re.match(r"\s*([^=]*?) = ?", text)
            if head and not is_answer(path):
                own.update(NAME.findall(head.group(1))[1:])
    return own, foreign, made, declared


def main():
    paths = files()
    own, foreign, made, declared = own_names(paths)
    names = {
        name: respelled(name)
        for name in own - foreign - made
        if re.search(r"[A-Za-z]", name) and not re.search(r"[◌≡≤<+*∧∨∷/^→×]", name) and respelled(name) != name
    }
    # Behind a dot stands a field or a name of a module: no name that is only bound somewhere.
    fields = {name: new for name, new in names.items() if name in declared}
    texts, clashes = {}, []
    for path in paths:
        text = path.read_text()
        if path.suffix == ".antt":
            new = spell_antt(text, names, fields)
            clashes += clash(path, text, names)
        else:
            new = spell_source(text, names, fields, path.suffix == ".edit")
        if new != text:
            texts[path] = new
    for line in clashes:
        print(line)
    if "--names" in sys.argv:
        for name in sorted(names):
            print(f"{name} {names[name]}")
    if clashes:
        sys.exit(1)
    for path, text in texts.items():
        path.write_text(text)
    print(f"{len(names)} names, {len(texts)} files")


def spell(text, names, fields):
    def one(found):
        here = fields if found.start() and text[found.start() - 1] == "." else names
        return here.get(found.group(), found.group())

    return NAME.sub(one, text)


def spell_antt(text, names, fields):
    lines = []
    for line in text.split("\n"):
        code, dash, comment = line.partition("--")
        lines.append(spell(code, names, fields) + dash + comment)
    return "\n".join(lines)


def spell_source(text, names, fields, is_edit):
    lines, depth = [], 0
    for line in text.split("\n"):
        code, slashes, comment = line.partition("//")
        body = re.sub(r"^(old|new): ", "", code.strip()) if is_edit else code.strip()
        starts = re.match(r"(pub )?ghost |(ensures|requires|invariant|decreases|also_owns|also_shares)\b", body)
        if starts or depth > 0:
            lines.append(spell(code, names, fields) + slashes + comment)
            depth = max(0, depth + code.count("{") - code.count("}"))
        else:
            lines.append(line)
    return "\n".join(lines)


def clash(path, text, names):
    before = collections.defaultdict(set)
    for line in text.split("\n"):
        text = clauses(line)
        for name in NAME.findall(text.partition("{")[2] if line.startswith("use ") else text):
            before[names.get(name, name)].add(name)
    return [f"{path.relative_to(ROOT)}: {' and '.join(sorted(group))} fall together as {name}" for name, group in sorted(before.items()) if len(group) > 1]


if __name__ == "__main__":
    main()
