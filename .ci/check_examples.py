#!/usr/bin/env python3
"""Runs what README.md and docs/GUIDE.md show through the program, compares the replies, and tries its words and streams.

In GUIDE.md each table with the head `| script | reply |` is a script and its replies, line by line; in README.md the
block behind "The first one prints" is the output for examples/first_path.script.
"""
import os
import re
import subprocess
import sys

TOP = os.path.dirname(os.path.dirname(os.path.abspath(__file__)))


def text_of(name):
    with open(os.path.join(TOP, name), encoding="utf-8") as file:
        return file.read()


def written(script):
    done = subprocess.run([os.path.join(TOP, "lake")], input=script.encode(), capture_output=True)
    if done.returncode != 0:
        sys.exit(f"lake ended with status {done.returncode}: {done.stderr.decode()}")
    return done.stdout.decode()


def guide_examples():
    """Each table's script and replies."""
    for table in re.findall(r"^\| script \| reply \|\n\|---\|---\|\n((?:\|.*\n)+)", text_of("docs/GUIDE.md"), re.M):
        rows = [[cell.strip().strip("`") for cell in line.strip("|\n ").split(" | ")] for line in table.splitlines()]
        script = "".join(row[0] + "\n" for row in rows if len(row) > 1 and row[0])
        yield script, "".join(row[-1] + "\n" for row in rows)


def readme_example():
    shown = re.search(r"The first one prints\n\n((?:    .*\n)+)", text_of("README.md")).group(1)
    return text_of("examples/first_path.script"), re.sub(r"^    ", "", shown, flags=re.M)


def check_words():
    """Any word, one that is no text included, is answered by the usage line and status 2, and nothing is read."""
    for word in (b"--help", b"\xff"):
        refused = subprocess.run([os.path.join(TOP, "lake").encode(), word], input=b"1 BEGIN\n", capture_output=True)
        if refused.returncode != 2 or not re.fullmatch(rb"! usage: lake [^\n]*\n", refused.stdout):
            sys.exit(f"the word {word} ends with {refused.returncode} and {refused.stdout}")


def check_streams():
    """An input that can't be read ends with status 3, and an output that takes nothing with 4."""
    folder = os.open(TOP, os.O_RDONLY)
    unread = subprocess.run([os.path.join(TOP, "lake")], stdin=folder, capture_output=True)
    if (unread.returncode, unread.stdout) != (3, b"! read fault\n"):
        sys.exit(f"an unreadable input ends with {unread.returncode} and {unread.stdout}")
    with open("/dev/full", "wb") as full:
        lost = subprocess.run([os.path.join(TOP, "lake")], input=b"1 BEGIN\n", stdout=full)
    if lost.returncode != 4:
        sys.exit(f"a full output ends with {lost.returncode}")


def main():
    examples = [*guide_examples(), readme_example()]
    tables = len(re.findall(r"^\|\s*script\b", text_of("docs/GUIDE.md"), re.M))
    if tables == 0 or len(examples) != tables + 1:
        sys.exit(f"docs/GUIDE.md has {tables} tables of scripts, and {len(examples) - 1} of them were read")
    for script, replies in examples:
        found = written(script)
        if found != replies:
            sys.exit(f"the script\n{script}is answered\n{found}and the document says\n{replies}")
    check_words()
    check_streams()
    print(f"{len(examples)} examples of README.md and docs/GUIDE.md are answered as they say")


if __name__ == "__main__":
    main()
