#!/usr/bin/env python3
"""Reads the documents as text, and tells of each what it should be: try_pages.py

Each path that a page names, in backquotes or by a link, is in the repository, and each section that it names of a page. No sentence of README, of
docs/operate and of docs/understand has more than 30 words: what stands in backquotes is one word, and each cell of a table is a passage of its own.
README, docs/operate and what the program writes say nothing by a word that only the sources have. Of the sources docs/operate/HTTP.md has each route, SERVE.md each metric, and
CONFIG.md's example each member that is read. Each constant of LIMITS.md stands where it says, with its number. README has a screen or two. It needs git,
and no program."""

import glob
import json
import os
import re
import subprocess
import sys

import told_rows
from allocd_service import ROOT

MOST_WORDS = 30
MOST_LINES_OF_README = 90
# A word of the sources that says nothing to who runs the program.
INNER = re.compile(r"\bdesks?\b", re.I)
PATH = re.compile(
    r"(?:\.ci|bench|crates|dist|docs|edits|examples|scripts|tests)(?:/[\w.*-]+)+/?|[a-z_]+/(?:src|specs|proofs)/[\w./*-]+|[A-Z][A-Z-]*\.md|crates\.txt")
# Limits that are told in another unit, in a product or in a word.
TOLD_OTHERWISE = ("LONGEST_DURATION", "PIECE", "TRIES_A_PLACE")
# CRATE and NAME stand for any.
HOLDER = re.compile(r"(?:^|/)[A-Z]+(?:/|$)")


def text_of(name):
    with open(f"{ROOT}/{name}") as it:
        return it.read()


def pages():
    found = subprocess.run(["git", "ls-files", "*.md"], cwd=ROOT, capture_output=True, text=True, check=True).stdout.split()
    return sorted(name for name in found if os.path.exists(f"{ROOT}/{name}"))


def for_operators():
    return [name for name in pages() if name == "README.md" or name.startswith("docs/operate/")]


def plain():
    """What is read by whoever runs the program or wants to know what it means."""
    return [*for_operators(), *(name for name in pages() if name.startswith("docs/understand/"))]


def named_paths(text):
    """What stands in backquotes, or behind a link, and has the form of a path of the repository."""
    for span in re.findall(r"`([^`\n]+)`", text):
        # Of a command its first word.
        word = span.removeprefix("./").split(" ")[0]
        if PATH.fullmatch(word) and not HOLDER.search(word):
            yield word
    for goal in re.findall(r"\]\(([^)\s#]+)", text):
        if not re.match(r"[a-z]+:", goal):
            yield goal


def is_there(path, folder):
    return any(glob.glob(f"{ROOT}/{top}/{path}") for top in ("", "crates", folder))


def dead_paths(name):
    return sorted(path for path in set(named_paths(text_of(name))) if not is_there(path, os.path.dirname(name)))


def headings(name):
    return re.findall(r"^#+ (.*)$", text_of(name).replace("`", ""), re.M)


def dead_sections(name):
    """Sections that are named behind a page, as `docs/operate/SERVE.md`, *Rounds*, and that it does not have."""
    named = re.findall(r"`((?:docs|bench)/[\w/]+\.md)`,\s+\*([^*]+)\*", text_of(name))
    return [f"{page}, {title}" for page, title in named if is_there(page, "") and " ".join(title.split()) not in headings(page)]


def passages(text):
    """The paragraphs, items, cells and headings of a page, without what it shows of commands and files."""
    lines, shown = [], False
    for line in text.split("\n"):
        shown = shown != line.startswith("```")
        if not shown and not line.startswith(("    ", "```")):
            lines.append(line)
    for block in re.split(r"\n\s*\n", "\n".join(lines)):
        block = re.sub(r"`[^`]*`", "CODE", block)
        for part in re.split(r"\n(?=\s*(?:[-*] |\d+\. |\||#))", block):
            yield from re.split(r"(?<!\\)\|", part) if part.lstrip().startswith("|") else [part]


def sentences(text):
    for passage in passages(text):
        passage = re.sub(r"^\s*(?:[-*]|\d+\.|#+)\s", "", passage)
        for one in re.split(r"(?<=[.!?])[*)]*\s+(?=[A-Z`*(0-9\"])", passage):
            yield " ".join(one.split())


def long_sentences(name):
    counted = ((len(re.findall(r"[\w'’,.-]*\w[\w'’,.-]*", one)), one) for one in sentences(text_of(name)))
    return [f"{count}: {one}" for count, one in counted if count > MOST_WORDS]


def inner_words(name):
    return [one for one in sentences(text_of(name)) if INNER.search(one)]


def inner_texts():
    """Texts of the program, as log lines, answers and help, that say such a word. Comments are none."""
    for path in sorted(glob.glob(f"{ROOT}/crates/*/src/**/*.rt", recursive=True)):
        code = "\n".join(line for line in text_of(os.path.relpath(path, ROOT)).split("\n") if not line.lstrip().startswith(("//", "ghost ")))
        for literal in re.findall(r'"((?:[^"\\]|\\.)*)"', code):
            if INNER.search(literal):
                yield f"{os.path.relpath(path, ROOT)}: {literal}"


def limits():
    """The rows of docs/operate/LIMITS.md: the numbers of each, its constants, and the crates and files in which it says that they stand."""
    for line in text_of("docs/operate/LIMITS.md").split("\n"):
        cells = line.strip("| ").split(" | ")
        if line.startswith("| ") and len(cells) == 3 and cells[0] != "Limit":
            numbers = {int(one.replace(",", "")) for one in re.findall(r"\d[\d,]*\d|\d", cells[0])}
            yield numbers, re.findall(r"`([A-Z][A-Z_]+)`", cells[1]), re.findall(r"`([a-z_]+)`(?: `([a-z_/]+)`)?", cells[1])


def constant(name, places):
    """What the sources have as a constant of a name, in the first of these crates and files that has it."""
    for crate, file in places:
        for path in sorted(glob.glob(f"{ROOT}/crates/{crate}/src/{file or '**/*'}.rt", recursive=True)):
            with open(path) as it:
                found = re.search(rf"const {name}: [^=]*= *([^;]*);", it.read())
            if found:
                return found.group(1).replace("_", "")
    return None


def wrong_limits():
    """Constants that are not where they are said to be, or are another number. Milliseconds are told in seconds or minutes."""
    for numbers, names, places in limits():
        for name in names:
            value = constant(name, places)
            if value is None:
                yield f"{name}: not in {places}"
            elif value.isdigit() and name not in TOLD_OTHERWISE and not numbers & {int(value), int(value) // 1000, int(value) // 60000}:
                yield f"{name}: {value}, and not {numbers}"


def members_read():
    """The names of members that the sources read: of a configuration and of what stands in its `allocator`."""
    tables = re.findall(r"static [A-Z]+_READ: [^=]*= \[(.*?)\];", text_of("crates/config_members/src/tables.rt"), re.S)
    settings = text_of("crates/service_settings/src/settings/members.rt")
    return {name for text in [*tables, settings] for name in re.findall(r'"(\w+)"', text)}


def members_shown():
    """Those of the example of docs/operate/CONFIG.md, which is JSON once what stands behind `//` is away."""
    shown = re.search(r"^    \{$.*?^    \}$", text_of("docs/operate/CONFIG.md"), re.M | re.S).group()
    found = []
    json.loads(re.sub(r"  // .*", "", shown), object_pairs_hook=lambda pairs: found.extend(name for name, _ in pairs))
    return set(found)


def metrics():
    """The metrics of the sources, and those of the table of docs/operate/SERVE.md."""
    name = re.compile(r"\b(?:allocd|process)_[a-z_]+")
    made = re.findall(r'"((?:allocd|process)_[a-z_]+)"', text_of("crates/service_state/src/metrics.rt"))
    table = text_of("docs/operate/SERVE.md").split("| Metric | What |")[1].split("\n\n")[0]
    return set(made), {found for line in table.split("\n")[2:] for found in name.findall(line.split(" | ")[0])}


def routes():
    """The paths of the sources, and those of the table of docs/operate/HTTP.md, each with `{}` for what stands for any segment."""
    made = re.findall(r'router\.insert\("([^"]*)"', text_of("crates/sd_routes/src/place.rt"))
    table = text_of("docs/operate/HTTP.md").split("| Request | Answer |")[1].split("\n\n")[0]
    told = [found for line in table.split("\n")[2:] for found in re.findall(r"`[A-Z]+ (/[^`?]*)", line.split(" | ")[0])]
    return tuple({re.sub(r"\{\w+\}", "{}", path) for path in paths} for paths in (made, told))


def rows():
    for name in pages():
        yield f"{name}: each path is there", dead_paths(name)
        yield f"{name}: each section is there", dead_sections(name)
    for name in plain():
        yield f"{name}: no sentence has more than {MOST_WORDS} words", long_sentences(name)
    for name in for_operators():
        yield f"{name}: no word that only the sources have", inner_words(name)
    yield "no text of the sources says a word that only they have", list(inner_texts())
    yield "docs/operate/CONFIG.md: its example has each member that is read", sorted(members_read() - members_shown())
    yield "docs/operate/SERVE.md: its table has each metric of the sources, and no other", sorted(set.symmetric_difference(*metrics()))
    yield "docs/operate/HTTP.md: its table has each route of the sources, and no other", sorted(set.symmetric_difference(*routes()))
    yield "docs/operate/LIMITS.md: each constant is where it says, with its number", list(wrong_limits())
    count = text_of("README.md").count("\n")
    yield f"README.md: at most {MOST_LINES_OF_README} lines", [] if count <= MOST_LINES_OF_README else [count]


def main():
    tell = told_rows.Teller()
    for row, faults in rows():
        tell(row, not faults, "\n".join(map(str, faults)))
    return tell.end()


if __name__ == "__main__":
    sys.exit(main())
