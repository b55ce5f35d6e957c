#!/usr/bin/env python3
"""Runs the commands that the documents show, and compares what they print with what the documents say.

    tests/documents.py [DOCUMENT ..]

Two kinds of fenced blocks are run, all those of a document in order by one shell. It begins at the top of a fresh copy of the
checkout, in which all documents are tried in turn:

- ```console: a line that begins with `$ ` is a command, and the lines below it are what it prints on standard output and standard
  error together;
- ```sh: the whole block is one command, which prints nothing and ends with 0.

Besides, each link of a document to a file of the checkout, or to a heading of one, has to lead there. Nothing but Python's standard
library is wanted, and the released programs.
"""

import difflib
import glob
import os
import re
import shutil
import subprocess
import sys
import tempfile
from collections import namedtuple

ROOT = os.path.dirname(os.path.dirname(os.path.abspath(__file__)))
DOCUMENTS = ("README.md", "docs/TUTORIAL.md", "docs/COMING-FROM.md", "docs/USAGE.md")
END = "@@ the end of a command @@"

# A command of a document: the line on which it stands, its text, the lines that it has to print, and its status, where it is said.
Shown = namedtuple("Shown", "line command printed status")


def text_of(name):
    """The text of a file of the checkout."""
    with open(os.path.join(ROOT, name), encoding="utf-8") as file:
        return file.read()


def fences(text):
    """The fenced blocks of a document: the line of the first fence, the word behind it, and the lines between."""
    opened, word, lines = 0, "", []
    for number, line in enumerate(text.split("\n"), 1):
        if not line.startswith("```"):
            lines.append(line)
        elif opened:
            yield opened, word, lines
            opened = 0
        else:
            opened, word, lines = number, line[3:], []


def console(first, lines):
    """The commands of a block of a console."""
    shown = []
    for number, line in enumerate(lines, first + 1):
        if line.startswith("$ "):
            shown.append(Shown(number, line[2:], [], None))
        else:
            shown[-1].printed.append(line)
    return shown


def commands(text):
    """The commands of a document, in order."""
    for line, word, lines in fences(text):
        if word == "console":
            yield from console(line, lines)
        elif word == "sh":
            yield Shown(line, "\n".join(lines), [], 0)


def copy_of_checkout(room):
    """A copy of the checkout, without what was built there."""
    left = shutil.ignore_patterns("out", ".git", "__pycache__", "must-fail")
    return shutil.copytree(ROOT, os.path.join(room, "shex"), symlinks=True, ignore=left)


def script_of(shown):
    """A script that runs the commands in turn, and prints a line behind each with its status, which the next command sees."""
    quoted = ["'" + one.command.replace("'", "'\\''") + "'" for one in shown]
    return "".join(f"eval {command}\nstatus=$?; printf '%s %s\\n' '{END}' \"$status\"; (exit \"$status\")\n" for command in quoted)


def printed_by(shown, folder):
    """What each command prints when all are run in a folder: its lines and its status."""
    done = subprocess.run(
        ["sh", "-c", script_of(shown)], cwd=folder, stdout=subprocess.PIPE, stderr=subprocess.STDOUT,
        stdin=subprocess.DEVNULL, encoding="utf-8", errors="replace", check=False,
    )
    parts = re.split(re.escape(END) + r" (\d+)\n", done.stdout)
    return [(text.splitlines(), int(status)) for text, status in zip(parts[::2], parts[1::2])]


def difference(name, one, lines, status):
    """What a command gave that is not what the document says, if anything."""
    if one.status is not None and status != one.status:
        return f"{name}, line {one.line}: the status is {status}\n" + "\n".join(lines)
    if lines == one.printed:
        return None
    return "\n".join(difflib.unified_diff(one.printed, lines, f"{name}, line {one.line}", "what was printed", n=0, lineterm=""))


def try_commands(names=DOCUMENTS):
    """How many commands of the documents print what is said, how many do not, and a text on each of these."""
    count, texts = 0, []
    with tempfile.TemporaryDirectory() as room:
        folder = copy_of_checkout(room)
        for name in names:
            shown = list(commands(text_of(name)))
            given = printed_by(shown, folder)
            count += len(shown)
            texts += filter(None, (difference(name, one, *came) for one, came in zip(shown, given)))
            texts += [f"{name}, line {one.line}: not run, since the shell ended" for one in shown[len(given) :]]
    return count - len(texts), len(texts), texts


def anchors(name):
    """The names by which links lead to the headings of a document."""
    headings = re.findall(r"^#+ (.*)$", text_of(name), re.MULTILINE)
    return {re.sub(r"[^\w\- ]", "", heading.lower()).replace(" ", "-") for heading in headings}


def links(name):
    """The links of a document to files of the checkout, as paths from the top, each with the heading to which it leads, or nothing."""
    found = re.findall(r"\]\(([^)#:]*)(?:#([^)]*))?\)", text_of(name))
    return [(os.path.normpath(os.path.join(os.path.dirname(name), link)) if link else name, heading) for link, heading in found]


def leads(link, heading):
    """Whether a link leads to a file, and to a heading of it if it names one."""
    return os.path.exists(os.path.join(ROOT, link)) and (not heading or heading in anchors(link))


def try_links():
    """How many links of all documents lead to what they name, how many do not, and a text on each of these."""
    names = [os.path.relpath(path, ROOT) for pattern in ("*.md", "*/*.md", "docs/*/*.md") for path in glob.glob(os.path.join(ROOT, pattern))]
    found = [(name, *link) for name in sorted(names) for link in links(name)]
    texts = [f"{name}: nothing stands at {link}#{heading}".rstrip("#") for name, link, heading in found if not leads(link, heading)]
    return len(found) - len(texts), len(texts), texts


def main():
    """Tries the commands of the documents that are named, or of all, and the links, and prints what differs."""
    came = [try_commands(sys.argv[1:] or DOCUMENTS), try_links()]
    for _, _, texts in came:
        for text in texts:
            print(text)
    failed = sum(count for _, count, _ in came)
    print(f"{sum(count for count, _, _ in came)} passed, {failed} failed")
    return 1 if failed else 0


if __name__ == "__main__":
    sys.exit(main())
