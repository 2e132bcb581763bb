#!/usr/bin/env python3
"""Alters one token of each good example script, and counts what `mailfile-tool check` says beside the first line of each.

    scripts/slips.py [PROGRAM]

A token is left out, doubled, misspelt, or written as another mark. Of an altered script that is refused, each line after the first tells
a fault that nobody made; those scripts are printed.
"""

import collections
import pathlib
import re
import subprocess
import sys
import tempfile

ROOT = pathlib.Path(__file__).resolve().parent.parent
PROGRAM = str(pathlib.Path(sys.argv[1]).resolve()) if len(sys.argv) > 1 else str(ROOT / "mailfile-tool")
MARKS = ";{}()[],"
TOKEN = re.compile(r"""
    (?P<gap>\s+|\#[^\n]*\n|/\*.*?\*/) | (?P<word>[A-Za-z_]\w*) | (?P<tag>:[A-Za-z_]\w*) | (?P<number>\d+[KMGkmg]?)
    | (?P<string>"(?:\\.|[^"\\])*") | (?P<mark>[;{}()\[\],])
""", re.S | re.X)


def tokens(text):
    """The tokens of a script as (start, end, kind); none where it has others than these."""
    at, found = 0, []
    while at < len(text):
        match = TOKEN.match(text, at)
        if not match:
            return []
        if match.lastgroup != "gap":
            found.append((match.start(), match.end(), match.lastgroup))
        at = match.end()
    return found


def misspelt(word):
    """A word two of whose letters changed places, or that lacks one of two that are the same."""
    middle = len(word) // 2
    left, right = word[middle - 1 : middle + 1]
    return word[: middle - 1] + (right + left if left != right else left) + word[middle + 1 :]


def altered(text):
    """The scripts that differ from this one in a token."""
    for number, (start, end, kind) in enumerate(tokens(text)):
        word, before, after = text[start:end], text[:start], text[end:]
        yield before + " " + after
        yield before + word + " " + word + after
        if kind == "mark":
            yield before + MARKS[(MARKS.index(word) + 1 + number % 7) % 8] + after
        elif len(word.strip('":')) > 1:
            inner = word.strip('":')
            yield before + word.replace(inner, misspelt(inner)) + after


def check(folder, names):
    """What the program says of scripts, as lines by their names."""
    told = collections.defaultdict(list)
    for first in range(0, len(names), 200):
        words = [PROGRAM, "check", *names[first : first + 200]]
        said = subprocess.run(words, cwd=folder, stdout=subprocess.PIPE, text=True, check=False).stdout
        for line in said.splitlines():
            if ": warning: " not in line:
                told[line.split(":", 1)[0]].append(line)
    return told


def main():
    texts = {path.read_text(encoding="utf-8", errors="replace") for path in (ROOT / "examples").rglob("*.sieve")}
    with tempfile.TemporaryDirectory() as folder:
        def write(scripts):
            for number, text in enumerate(scripts):
                pathlib.Path(folder, f"{number:05}.sieve").write_text(text, encoding="utf-8")
            return [f"{number:05}.sieve" for number in range(len(scripts))]

        texts = sorted(texts)
        refused = check(folder, write(texts))
        good = [text for number, text in enumerate(texts) if f"{number:05}.sieve" not in refused]
        scripts = [script for text in good for script in altered(text)]
        told = check(folder, write(scripts))
        lines = [line for said in told.values() for line in said[1:]]
        print(f"{len(good)} scripts, {len(scripts)} altered, {len(told)} refused, {len(lines)} lines beside the first")
        for name, said in told.items():
            if len(said) > 1:
                print(pathlib.Path(folder, name).read_text(encoding="utf-8"), *said, sep="\n", end="\n\n")


main()
