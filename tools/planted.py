#!/usr/bin/env python3
"""Plants one bug at a time in a copy of its crate, and says what the prover makes of it.

    tools/planted.py                      every bug of tools/planted
    tools/planted.py outline cost         the bugs of two crates
    tools/planted.py outline/last_is_the_start
                                          one bug

A bug is a file tools/planted/CRATE/LABEL.edit of three lines: the file, a text that stands in it once, and the text
to put in its place. For each bug the prover's answer is printed: refused, with its first error, or SURVIVED: the crate
is still proved, so that no contract of it tells the bug from the code. The last line has the counts.

Nothing here changes: the crates are copied to a folder for temporary files, with what earlier checks kept of them, and each
is checked as it stands before the first bug is planted in it. target/planted/log keeps all that the prover said.
"""
import argparse
import os
import queue
import shutil
import subprocess
import sys
import tempfile
import threading
import time
from concurrent.futures import ThreadPoolExecutor
from pathlib import Path

ROOT = Path(__file__).resolve().parents[1]
WORK = ROOT / "target" / "planted"
RT = os.environ.get("RT", "rt")


def crate_names():
    """The crates in the order of crates.txt."""
    lines = (ROOT / "crates.txt").read_text().splitlines()
    return [line.split(":")[0].split()[0] for line in lines if ":" in line]


def bugs_of(crate, with_must_fail):
    """The files of a crate's bugs."""
    folders = [ROOT / "tools" / "planted" / crate]
    if with_must_fail:
        folders.append(ROOT / "crates" / crate / "must-fail")
    return [bug for folder in folders for bug in sorted(folder.glob("*.edit"))]


def replacements(bug):
    """The triples (file, old text, new text) of a bug."""
    found, file, old = [], None, None
    for line in bug.read_text().splitlines():
        key, _, text = line.partition(":")
        text = text.removeprefix(" ")
        if key == "file":
            file = text
        elif key == "old":
            old = text
        elif key == "new":
            found.append((file, old, text))
    return found


def planted(bug, folder):
    """The edited text of each file that a bug changes."""
    texts = {}
    for file, old, new in replacements(bug):
        path = folder / file
        text = texts.get(path, path.read_text())
        if text.count(old) != 1:
            raise ValueError(f"its text stands in {file} {text.count(old)} times")
        texts[path] = text.replace(old, new)
    return texts


def make_tree(tree):
    """A copy of the crates as they stand, with what is proved of them."""
    tree.mkdir(parents=True, exist_ok=True)
    shutil.rmtree(tree / "crates", ignore_errors=True)
    shutil.copytree(ROOT / "crates", tree / "crates", ignore=shutil.ignore_patterns("must-fail"))
    shutil.copy(ROOT / "crates.txt", tree)


def check(tree, crate, log):
    """Checks a crate of the copy: the exit status, what was said, and the seconds."""
    began = time.monotonic()
    ran = subprocess.run([RT, "check"], cwd=tree / "crates" / crate, stdout=subprocess.PIPE, stderr=subprocess.STDOUT, text=True)
    log.parent.mkdir(parents=True, exist_ok=True)
    log.write_text(ran.stdout)
    return ran.returncode, ran.stdout.replace(f"{tree}/crates/{crate}/", ""), round(time.monotonic() - began)


def first_error(said):
    """The first line that says what does not hold."""
    told = (": error: ", ": error[", "it is not proved", "found no proof")
    errors = [line for line in said.splitlines() if any(words in line for words in told)]
    return errors[0].removeprefix("note: ")[:200] if errors else "no error is told"


def verdict(status, said):
    """What came of a bug. A proof that only misses a name of its own refuses nothing: such an edit is a bad one."""
    error = first_error(said)
    if status == 0:
        return "SURVIVED", "the crate is still proved"
    if status != 1 or not any(line.startswith("logic=not-proved") for line in said.splitlines()):
        return "BAD", "it does not reach the prover: " + error
    if "has no `" in error or "has no field" in error or "not in scope" in error:
        return "BAD", "the proof misses a name: " + error
    return "refused", error


def try_bug(tree, crate, bug):
    """Plants a bug, checks its crate and takes the bug out again."""
    try:
        texts = planted(bug, tree / "crates" / crate)
    except (ValueError, OSError) as fault:
        return "BAD", str(fault), 0
    before = {path: path.read_text() for path in texts}
    try:
        for path, text in texts.items():
            path.write_text(text)
        status, said, seconds = check(tree, crate, WORK / "log" / crate / f"{bug.stem}.log")
    finally:
        for path, text in before.items():
            path.write_text(text)
    return *verdict(status, said), seconds


def try_crate(trees, crate, bugs, counts, lock):
    """Tries the bugs of a crate one after the other in a copy that no other crate uses meanwhile."""
    tree = trees.get()
    try:
        status, said, _ = check(tree, crate, WORK / "log" / crate / "as-it-stands.log")
        for bug in bugs:
            answer = ("BAD", "the crate is not proved as it stands", 0) if status else try_bug(tree, crate, bug)
            with lock:
                counts[answer[0]] = counts.get(answer[0], 0) + 1
                print(f"{answer[0]:8} {crate}/{bug.stem} ({answer[2]} s): {answer[1]}", flush=True)
    finally:
        trees.put(tree)


def chosen(names, with_must_fail):
    """The bugs of each crate that the names ask for."""
    found = {}
    for crate in crate_names():
        for bug in bugs_of(crate, with_must_fail):
            if not names or crate in names or f"{crate}/{bug.stem}" in names:
                found.setdefault(crate, []).append(bug)
    return found


def main():
    parser = argparse.ArgumentParser(description=__doc__, formatter_class=argparse.RawDescriptionHelpFormatter)
    parser.add_argument("names", nargs="*", metavar="CRATE or CRATE/LABEL", help="which bugs to try; all without one")
    parser.add_argument("--must-fail", action="store_true", help="try the edits of crates/*/must-fail as well")
    parser.add_argument("--list", action="store_true", help="only print the bugs")
    parser.add_argument("--jobs", type=int, default=1, metavar="N", help="check N crates at a time, each in a copy of its own")
    words = parser.parse_args()
    bugs = chosen(words.names, words.must_fail)
    known = {name for crate, of_crate in bugs.items() for name in [crate, *(f"{crate}/{bug.stem}" for bug in of_crate)]}
    for name in words.names:
        if name not in known:
            sys.exit(f"planted: there is no bug {name}")
    if words.list:
        for crate, of_crate in bugs.items():
            for bug in of_crate:
                for file, old, new in replacements(bug):
                    print(f"{crate}/{bug.stem}: {file}: {old.strip()}  ->  {new.strip()}")
        return
    began = time.monotonic()
    trees, counts, lock = queue.Queue(), {}, threading.Lock()
    # Outside the repository, whose gate takes a second crates.txt for a fault.
    with tempfile.TemporaryDirectory(prefix="planted-") as copies, ThreadPoolExecutor(words.jobs) as pool:
        for k in range(words.jobs):
            tree = Path(copies) / f"tree{k}"
            make_tree(tree)
            trees.put(tree)
        tries = [pool.submit(try_crate, trees, crate, of_crate, counts, lock) for crate, of_crate in bugs.items()]
        for one in tries:
            one.result()
    told = ", ".join(f"{number} {word}" for word, number in sorted(counts.items(), key=lambda one: one[0] != "refused"))
    print(f"{sum(counts.values())} planted: {told} ({round(time.monotonic() - began)} s)")
    sys.exit(0 if set(counts) == {"refused"} else 1)


if __name__ == "__main__":
    main()
