#!/usr/bin/env python3
"""Writes the repository's own definitions and lemmas as today's Rattle spells names, by the table port-names.tsv beside this file.

usage: tools/port_names.py

Run once, at the top, right after the kit's port.py: words are in snake case, types and facts in camel case. Functions of src/,
exported names, strings and modules keep theirs. The kit's snake.py turns the words; two names that a library has too are turned
here, in the files that mean ours.
"""
import glob
import os
import re
import subprocess
import sys

HERE = os.path.dirname(os.path.realpath(__file__))
SNAKE = "/opt/rattle/port/notes/2026-11-18-names-are-in-snake-case/snake.py"
OURS = re.compile(r"use Rattle\.text\.proofs\.Tests\.\{[^}]*or-false")


def ours(path, text):
    """The names or-false and or-true are the library's in other files."""
    if path.endswith("text/proofs/Tests.antt") or OURS.search(text):
        text = re.sub(r"(?<![\w-])or-false(?![\w-])", "or_false", text)
    if path.endswith("search/proofs/Ranges.antt"):
        text = re.sub(r"(?<![\w-])or-true(?![\w-])", "or_true", text)
    return text


def main():
    top = os.path.dirname(HERE)
    subprocess.run([sys.executable, SNAKE, "--table", os.path.join(HERE, "port-names.tsv"), os.path.join(top, "crates")], check=True)
    for path in sorted(glob.glob(os.path.join(top, "crates/**/*.antt"), recursive=True)):
        with open(path, encoding="utf-8") as f:
            text = f.read()
        turned = ours(path, text)
        if turned != text:
            with open(path, "w", encoding="utf-8") as f:
                f.write(turned)
    for crate in sorted(glob.glob(os.path.join(top, "crates/*"))):
        subprocess.run(["rt", "fmt"], cwd=crate, check=False, stdout=subprocess.DEVNULL)


main()
