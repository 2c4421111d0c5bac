#!/usr/bin/env python3
"""Compares the documents with the repository.

The map of docs/ARCHITECTURE.md has each crate of crates.txt once, under the heading of its family, with the crates that
it stands on and its level, and no level is past nine. Each crate has a README.md of 8 to 45 lines. Each file that a document
or a crate's README.md names is there, and each script of bench/ and tools/ is named.
"""
import glob
import os
import re
import sys

TOP = os.path.dirname(os.path.dirname(os.path.abspath(__file__)))
LONGEST_CHAIN = 9
FOLDERS = r"crates|docs|bench|tools|examples|attacks|\.ci|src|specs|proofs|must-fail"
FILE = re.compile(rf"`((?:\w+/)?(?:{FOLDERS})/[\w./-]+)(?: [^`]*)?`|`([\w-]+\.(?:rt|antt|md|py|sh))`")


def text_of(name):
    with open(os.path.join(TOP, name), encoding="utf-8") as file:
        return file.read()


def names_of(pattern):
    return sorted(os.path.relpath(it, TOP) for it in glob.glob(os.path.join(TOP, pattern)))


def crates():
    """Each crate of crates.txt: its family, and the crates that it uses."""
    family, found = "", {}
    for line in text_of("crates.txt").splitlines():
        if line.startswith("# "):
            family = line[2:]
        elif line:
            name, used = line.split(":")
            found[name] = (family, set(used.split()))
    return found


def rows_of_map():
    """Family, level, name and the crates stood on, of each row of the map."""
    family = ""
    for line in text_of("docs/ARCHITECTURE.md").splitlines():
        row = re.fullmatch(r"\| (\d+) \| `(\w+)` \|.*\| ([^|]*) \|", line)
        if line.startswith("### "):
            family = line[4:]
        elif row:
            yield family, int(row[1]), row[2], set(re.findall(r"`(\w+)`", row[3]))


def faults_of_map():
    known = crates()
    rows = list(rows_of_map())
    names = [name for _, _, name, _ in rows]
    level = {name: at for _, at, name, _ in rows}
    yield from (f"{name} isn't in the map, or not once" for name in known if names.count(name) != 1)
    for family, at, name, on in rows:
        if name not in known:
            yield f"{name} is in the map, and not in crates.txt"
            continue
        if family.lower() != known[name][0].lower():
            yield f"{name} stands under '{family}', and in crates.txt under '{known[name][0]}'"
        if on != known[name][1]:
            yield f"{name}: the map and crates.txt differ in {' '.join(sorted(on ^ known[name][1]))}"
        least = 1 + max((level.get(it, 0) for it in on), default=0)
        if at != least:
            yield f"{name}: its level is {least}"
        if least > LONGEST_CHAIN:
            yield f"{name}: a chain of {least} crates is too long"


def is_there(said, document):
    """Whether a file is there, by its path from the top, from crates/, from the document's crate or from that crate's src/."""
    own = os.path.dirname(document)
    places = [os.path.join(TOP, it, said) for it in ("", "crates", own, os.path.join(own, "src"))]
    return any(os.path.exists(place + end) for place in places for end in ("", ".antt", ".rt"))


def faults_of_names(documents):
    for document in documents:
        for path, name in FILE.findall(text_of(document)):
            if "CRATE" not in path and not is_there(path or name, document):
                yield f"{document} names {path or name}, which isn't there"
    everything = "".join(map(text_of, documents))
    yield from (f"no document names {it}" for it in names_of("bench/*") + names_of("tools/*") if it not in everything)


def faults_of_readmes():
    for name in crates():
        readme = f"crates/{name}/README.md"
        if not os.path.exists(os.path.join(TOP, readme)):
            yield f"{readme} isn't there"
        elif not 8 <= len(text_of(readme).splitlines()) <= 45:
            yield f"{readme} has {len(text_of(readme).splitlines())} lines"


def main():
    documents = ["README.md", *names_of("docs/*.md"), *names_of("crates/*/README.md")]
    faults = [*faults_of_map(), *faults_of_readmes(), *faults_of_names(documents)]
    if faults:
        sys.exit("\n".join(f"the documents aren't true: {it}" for it in faults))
    print(f"the map of docs/ARCHITECTURE.md and the {len(crates())} crates of crates.txt agree")


if __name__ == "__main__":
    main()
