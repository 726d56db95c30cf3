#!/usr/bin/env python3
"""What a reader of the proof has to believe, counted and cross-checked.

  tools/definitions.py           print the tables of docs/PROOF.md that are made from the sources
  tools/definitions.py --check   say whether docs/PROOF.md has them as they are now, and whether
                                 each definition that a public contract cites is named there
"""
import functools
import re
import sys
from pathlib import Path

ROOT = Path(__file__).resolve().parent.parent
PAGE = ROOT / "docs" / "PROOF.md"
INNER = {"Lib"}


def sources(crate):
    return sorted((crate / "src").rglob("*.rt"))


def imports(text):
    """Each name that a source file takes from specs, with the crate and the file it stands in."""
    names = {}
    for crate, module, inside in re.findall(r"ghost use Rattle\.(\w+)\.specs\.(\w+)\.\{([^}]*)\};", text):
        if crate == "std":
            continue
        for name in inside.split(","):
            name, _, alias = name.strip().partition(" as ")
            names[(alias or name).strip()] = (crate, module, name.strip())
    return names


@functools.cache
def laws():
    """The laws of each trait: its ghost members behind its functions, of which an implementation gives proofs."""
    found = {}
    for crate in crates():
        for path in sources(crate):
            for trait, body in re.findall(r"^pub trait (\w+)[^{]*\{\n(.*?)^\}", path.read_text(), re.M | re.S):
                behind = body[body.rindex("    fn ") :] if "    fn " in body else ""
                found[trait] = set(re.findall(r"^    ghost (\w+):", behind, re.M))
    return found


def calls(text):
    """Each public function, method, trait member and implementation of a file, with the text that says what it means."""
    found = []
    owner, trait, shown = "", False, True
    proved = laws()
    lines = text.split("\n")
    for k, line in enumerate(lines):
        head = re.match(r"(?:pub )?(impl|trait)\b(?:<[^>]*>)? (.*)\{", line)
        if head:
            words = head.group(2).strip()
            trait = head.group(1) == "trait"
            of_trait = " for " in words
            shown = True
            name = words.split(" for ")[-1].split("<")[0].split(" as ")[0].split(":")[0].strip()
            owner = name + "::"
            if of_trait:
                of = words.split(" for ")[0].strip()
                body = "" if line.endswith("{}") else "\n".join(lines[k:]).split("\n}")[0]
                members = re.findall(r"^    ghost (\w+) = (\{.*)", body, re.M)
                meant = [member for label, member in members if label not in proved.get(of, ())]
                found.append((f"{of} for {name}", "\n".join(meant)))
                shown = False
        elif line.startswith("}"):
            owner, trait, shown = "", False, True
        item = re.match(r'\s*(pub )?(?:extern "C" )?fn (\w+)', line)
        if not item or not shown or not (item.group(1) or trait):
            continue
        found.append((owner + item.group(2), contract_after(lines[k:])))
    return found


def contract_after(lines):
    contract = []
    for line in lines:
        if re.match(r"\s*ensures\b", line):
            contract.append(line.partition("{")[2])
        if line.strip() in ("{", "{}") or line.rstrip().endswith((";", "{")) and "λ" not in line.rstrip()[-3:]:
            break
    return "\n".join(contract)


def words(contract):
    return re.findall(r"[\w'-]+", contract)


def cited(contract, names):
    return sorted({f"{names[w][1]}.{names[w][2]}" for w in words(contract) if w in names})


def crates():
    for line in (ROOT / "crates.txt").read_text().splitlines():
        names = line.split("#")[0].split(":")[0].split()
        if names and not names[0].endswith("trials"):
            yield ROOT / "crates" / names[0]


def public_calls():
    rows = []
    for crate in crates():
        for path in sources(crate):
            if path.name.startswith("tests"):
                continue
            text = path.read_text()
            names = imports(text)
            for call, contract in calls(text):
                rows.append((crate.name, call, cited(contract, names)))
    return rows


def cited_modules():
    """The files of specs that public contracts cite, each with its crate."""
    found = set()
    for crate in crates():
        for path in sources(crate):
            text = path.read_text()
            names = imports(text)
            for _, contract in calls(text):
                found |= {names[w][:2] for w in words(contract) if w in names}
    return found


def call_table():
    out = ["| crate | call | definitions in its contract |", "|---|---|---|"]
    for crate, call, names in public_calls():
        if names:
            out.append(f"| `{crate}` | `{call}` | {', '.join(f'`{n}`' for n in names)} |")
    return "\n".join(out)


def lines_of(crate, module):
    """The lines of a file of specs, without blank ones and imports."""
    text = (ROOT / "crates" / crate / "specs" / f"{module}.antt").read_text()
    return sum(1 for line in text.splitlines() if line.strip() and not line.startswith(("use ", "pub use ")))


def main():
    page = PAGE.read_text() if PAGE.exists() else ""
    if "--check" not in sys.argv:
        print(call_table())
        for crate in crates():
            for path in sorted((crate / "specs").glob("*.antt")):
                if path.stem not in INNER:
                    print(f"{crate.name}/specs/{path.stem}: {lines_of(crate.name, path.stem)} lines")
        return 0
    faults = []
    for row in call_table().splitlines():
        if row not in page:
            faults.append(f"not in the page: {row}")
    for cells in re.findall(r"^\| \d+ \| (.*?) \| (\d+) \|", page, re.M):
        crate = re.match(r"`(\w+)/", cells[0]).group(1)
        total = 0
        for name in re.findall(r"`([^`]*)`", cells[0]):
            if "/" in name:
                crate, name = name.split("/")[0], name.split("/")[-1]
            total += lines_of(crate, name)
        if total != int(cells[1]):
            faults.append(f"{cells[0]} has {total} lines, the page says {cells[1]}")
    listed = set()
    for cells in re.findall(r"^\| \d+ \| (.*?) \| \d+ \|", page, re.M):
        crate = ""
        for name in re.findall(r"`([^`]*)`", cells):
            if "/" in name:
                crate, name = name.split("/")[0], name.split("/")[-1]
            listed.add((crate, name))
    for crate, module in sorted(cited_modules()):
        if (crate, module) not in listed:
            faults.append(f"a public contract cites {crate}/specs/{module}, which the reading order leaves out")
    print("\n".join(faults) if faults else "docs/PROOF.md is as the sources are")
    return 1 if faults else 0


if __name__ == "__main__":
    sys.exit(main())
