#!/usr/bin/env python3
"""Checks what the documents say against the repository: paths, links, quoted lines, and commands with what they print.

Run at the top of the repository: tools/documents.py. It reads README.md, docs/*.md and the pages of the crates.

- A word in backticks that begins with a folder of the repository is a path that is there; `PATH:LINE` is a line of that file, and
  in the row of a table it names what stands first in that row.
- A link leads to a file that is there.
- A fenced block with the words `rattle PATH` has lines that stand in that file, one after another.
- A fenced block with the word `console` has commands behind `$ `, each with what it prints. They are run at the top of the repository.
"""
import glob
import os
import re
import subprocess
import sys

FOLDERS = ("crates/", "docs/", "examples/", "tools/", "misuse/", ".ci/")
BLOCK = re.compile(r"^```([^\n]*)\n(.*?)^```$", re.MULTILINE | re.DOTALL)
LINK = re.compile(r"\[[^\]\n]*\]\(([^)#\n]+)(?:#[^)\n]*)?\)")
CODE = re.compile(r"`([^`\n]+)`")


def lines_of(path):
    with open(path, encoding="utf-8") as file:
        return [line.strip() for line in file.read().splitlines()]


def is_there(path):
    """Whether the path, in which * stands for any name, is that of a file or folder."""
    return bool(glob.glob(path)) or os.path.exists(path)


def check_path(word, first):
    """What is wrong with a path, or with the line that it names; `first` is what the row of a table is about."""
    path, _, number = word.partition(":")
    if not is_there(path):
        return f"{path} is not there"
    if not number:
        return None
    lines = lines_of(path)
    if not number.isdigit() or not 1 <= int(number) <= len(lines):
        return f"{path} has no line {number}"
    if first and not re.search(rf"\b{re.escape(first)}\b", lines[int(number) - 1]):
        return f"line {number} of {path} does not name {first}"
    return None


def check_words(text):
    """What is wrong with the paths and links of a page without its blocks."""
    for line in text.splitlines():
        words = CODE.findall(line)
        first = words[0] if line.startswith("|") and words else None
        for word in words:
            if word.startswith(FOLDERS) and " " not in word and "NAME" not in word:
                yield check_path(word, first)


def check_links(page, text):
    for target in LINK.findall(text):
        if "://" not in target and not is_there(os.path.join(os.path.dirname(page), target)):
            yield f"the link to {target} leads nowhere"


def check_quote(path, body):
    """What is wrong with a quotation of a file: its lines stand there one after another, whatever their indentation."""
    quoted = [line.strip() for line in body.splitlines()]
    there = lines_of(path)
    starts = range(len(there) - len(quoted) + 1)
    if not any(there[at : at + len(quoted)] == quoted for at in starts):
        return f"the lines quoted from {path} do not stand there"
    return None


def check_commands(body):
    """What is wrong with the commands of a block and what they print."""
    commands = []
    for line in body.splitlines():
        if line.startswith("$ "):
            commands.append((line[2:], []))
        elif commands:
            commands[-1][1].append(line)
    for command, wanted in commands:
        run = subprocess.run(["sh", "-c", command], capture_output=True, text=True, check=False)
        if run.stdout.splitlines() != wanted:
            yield f"{command!r} prints {run.stdout!r}"


def check_page(page):
    with open(page, encoding="utf-8") as file:
        text = file.read()
    counts = {"quotations": 0, "commands": 0}
    wrong = []
    for words, body in BLOCK.findall(text):
        kind, _, path = words.partition(" ")
        if kind == "rattle" and path:
            counts["quotations"] += 1
            wrong.append(check_quote(path, body))
        elif kind == "console":
            counts["commands"] += body.count("$ ")
            wrong.extend(check_commands(body))
    bare = BLOCK.sub("", text)
    wrong.extend(check_words(bare))
    wrong.extend(check_links(page, bare))
    return [what for what in wrong if what], counts


def main():
    pages = ["README.md", *sorted(glob.glob("docs/*.md")), *sorted(glob.glob("crates/*/README.md"))]
    failed = 0
    quotations = 0
    commands = 0
    for page in pages:
        wrong, counts = check_page(page)
        quotations += counts["quotations"]
        commands += counts["commands"]
        for what in wrong:
            failed += 1
            print(f"{page}: {what}")
    print(f"documents: {len(pages)} pages, {quotations} quotations, {commands} commands; {failed} faults")
    return 1 if failed else 0


sys.exit(main())
