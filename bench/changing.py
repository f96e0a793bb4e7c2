#!/usr/bin/env python3
"""Makes the lists of places in docs/CHANGING.md anew, at the top of the repository.

Each list stands behind the line that makes it: `    places 'PATTERN'` or `    proofs 'PATTERN'`, then a line with the number
of rooms and their names. The lists are of what git has, so add new files first. It tells which lists changed.
"""
import pathlib
import re
import shlex
import subprocess
import textwrap

PAGE = pathlib.Path("docs/CHANGING.md")
FOLDERS = {"places": ["crates/*/src/*", "crates/*/specs/*"], "proofs": ["crates/*/proofs/*"]}


def rooms(kind, words):
    """The rooms with a file in which one of the words of the search stands."""
    found = subprocess.run(["git", "grep", "-lE", *words, "--", *FOLDERS[kind]], capture_output=True, text=True)
    return sorted({line.split("/")[1] for line in found.stdout.splitlines()})


def told(names):
    count = f"{len(names)} room{'' if len(names) == 1 else 's'}: "
    text = count + " ".join(f"`{name}`" for name in names) + "."
    return "\n".join(textwrap.wrap(text, 100, break_long_words=False, break_on_hyphens=False))


def anew(match):
    command, kind, words, was = match.groups()
    now = told(rooms(kind, shlex.split(words)))
    if now != was:
        print("changed:", command.strip())
    return f"{command}\n\n{now}\n"


text = PAGE.read_text()
made = re.sub(r"(?m)^(    (places|proofs) (.*))\n\n(\d+ rooms?: (?:.|\n)*?\.)\n(?=\n|\Z)", anew, text)
PAGE.write_text(made)
