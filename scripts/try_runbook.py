#!/usr/bin/env python3
"""Compares docs/operate/RUNBOOK.md with what the sources say: try_runbook.py

Each text of a log line of the service's crates, each line by which it refuses to start, each reason of a failed refresh, each line of the supervisor and
each exit status is to have a row, with its level, and each row is to be one of them; and the table of log lines in docs/operate/SERVE.md is to have the
same lines."""

import os
import re
import sys

import told_rows
from allocd_service import ROOT

CRATES = ("service_tasks", "serve_command", "serve_configuration", "journal_files", "log_queue", "daemon", "etcd_archive", "standby", "command_faults")
LEVELS = {"log_info": "info", "log_warning": "warn", "log_error": "error", "info!": "info", "warn!": "warn", "error!": "error"}
CALL = re.compile(r"(?<![\w!])(log_info|log_warning|log_error|info!|warn!|error!)(_of)?\(")
OF_COLLECTOR = re.compile(r"(?<![\w.])log_of_(?:name|number)\(&self\.rt, Level::(\w+),")
BY_ANSWER = re.compile(r'if is_refused \{ "(\w+)" \} else \{ "(\w+)" \}')
OF_ANSWER = re.compile(r'(?<!\w)log!\([^;]*; level,[^;]*; "([^"]*[^"{}][^"]* [^"]*)"')
LITERAL = re.compile(r'"((?:[^"\\]|\\.)*)"')
# What stands in place of a text that changes.
HOLE = ".."
# What names the command that ended, which here is the service.
ENDED = ("the .. ended: ..", "the service ended: ..")
# Lines of the configuration's members, which docs/understand/FORMATS.md has.
OF_FORMATS = ("{path}: no JSON", "{path}: scrape_configs[", "{path}: {way}: not followed")


def sources():
    for crate in CRATES:
        for top, _, names in os.walk(f"{ROOT}/crates/{crate}/src"):
            for name in sorted(names):
                with open(f"{top}/{name}") as it:
                    yield f"{crate}/{name}", it.read()


def behind(text, at):
    """What stands from an open parenthesis to the one that closes it; parentheses in texts are none."""
    depth, here = 0, at
    while here < len(text):
        if text[here] == '"':
            here = LITERAL.match(text, here).end()
            continue
        depth += (text[here] == "(") - (text[here] == ")")
        here += 1
        if not depth:
            break
    return text[at:here]


def pattern_of(text):
    """A text with each {hole}, as `..`."""
    return re.sub(r"\{[^}]*\}", HOLE, text)


def log_lines():
    """Each log line of the sources as a pair of its level and its text, with where it stands."""
    found = {}
    for name, text in sources():
        for call in CALL.finditer(text):
            if text[: call.start()].endswith("fn "):
                continue
            literals = LITERAL.findall(behind(text, call.end() - 1))
            if not literals or literals[-1] in ("{line}", "{line}: {why}"):
                continue
            line = pattern_of(literals[-1]).replace(*ENDED) + (f": {HOLE}" if call.group(2) else "")
            found[LEVELS[call.group(1)], line] = name
        for level, line in lines_of_collectors(text):
            found[level, line] = name
    return found


def lines_of_collectors(text):
    """Those of one collector: the level stands in the call, the text in `let line` before it; or the level is that of an answer, with a word of two for it, or with one for what was asked."""
    for call in OF_COLLECTOR.finditer(text):
        said = text[: call.start()].rpartition("let line =")[2].partition(";")[0]
        for literal in LITERAL.findall(said):
            yield "warn" if call.group(1) == "Warn" else "info", pattern_of(literal)
    for refused, entered in BY_ANSWER.findall(text):
        yield "warn", refused
        yield "info", entered
    for literal in OF_ANSWER.findall(text):
        for level in ("info", "warn"):
            yield level, pattern_of(literal)


def told_lines():
    """Each line by which a start is refused: what is made for the user by `format!` where a fault is told."""
    found = {}
    for name, text in sources():
        if name.split("/")[0] not in ("serve_command", "serve_configuration", "journal_files"):
            continue
        for literal in re.findall(r'format!\(in [^;]*;\s*"((?:[^"\\]|\\.)*)"', text):
            if literal.startswith(("{path}: ", "allocd serve: ")) and not literal.startswith(OF_FORMATS):
                found[pattern_of(literal)] = name
    return found


def said_lines():
    """Each line that the supervisor says."""
    with open(f"{ROOT}/scripts/allocd-supervise") as it:
        text = it.read()
    return {re.sub(r"\$\{?[\w%#*:\"]+\}?", HOLE, line) for line in re.findall(r'\bsay "([^"]*)"', text)}


def tables(name):
    """The rows of each table of a document, by the section in which it stands: lists of cells."""
    found, section = {}, ""
    with open(f"{ROOT}/{name}") as it:
        for line in it:
            if line.startswith("#"):
                section = line.strip("# \n")
            elif line.startswith("|") and not line.startswith("|---"):
                found.setdefault(section, []).append([cell.strip() for cell in line.strip().strip("|").split(" | ")])
    return found


def texts_of(cell):
    return re.findall(r"`([^`]*)`", cell)


def causes():
    """Why a source gave no list, as a log line says it behind `why=`, but for what a body or a file is at fault in."""
    with open(f"{ROOT}/crates/http_get/src/cause.rt") as it:
        found = re.findall(r'Cause::\w+ => "([^"]*)"', it.read())
    for name in ("http_get/src/error.rt", "file_configs/src/fault.rt"):
        with open(f"{ROOT}/crates/{name}") as it:
            # What has a hole alone is another text, and these two are said of no source of the service.
            found += [text for text in re.findall(r'#\[error\("([^"]*)"', it.read()) if not re.fullmatch(r"(\{[^}]*\}(: )?)+|no such source|no answer", text)]
    return [re.sub(r"\{[^}]*\}", HOLE, text) for text in found]


def cause_rows():
    """The reasons that the runbook has; one that begins with a path has any path."""
    rows = tables("docs/operate/RUNBOOK.md")["Sources and targets"]
    at = next(place for place, row in enumerate(rows) if row[0].startswith("Behind"))
    return [re.sub(r"PATH|\b503\b", HOLE, texts_of(row[0])[0]) for row in rows[at + 1 :] if texts_of(row[0])]


LOG_SECTIONS = ("The journal", "The configuration", "Sources and targets", "Allocations", "Renewals", "Collectors", "The service itself")


def runbook_lines():
    """The log lines of the runbook: pairs of a level and a text, in which `..` is any text."""
    for section in LOG_SECTIONS:
        for row in tables("docs/operate/RUNBOOK.md")[section]:
            for level in re.findall(r"\b(info|warn|error)\b", row[0]):
                yield level, texts_of(row[1])[0]


def serve_lines():
    """Those of docs/operate/SERVE.md, where WHY stands for a text that changes."""
    for row in tables("docs/operate/SERVE.md")["What it says of itself"]:
        if row[0] in ("info", "warn", "error", "info, warn where it is refused"):
            for level in re.findall(r"\b(info|warn|error)\b", row[0]):
                for text in texts_of(row[1]):
                    yield level, text.replace("WHY", HOLE)


def fits(written, line):
    """Whether a text of a document is a line's: `..` in either stands for any text."""
    def expression(text):
        return re.compile(".*".join(map(re.escape, text.split(HOLE))) + r"\Z", re.S)
    return bool(expression(written).match(line) or expression(line).match(written))


def unmatched(lines, others):
    return [line for line in lines if not any(line[0] == other[0] and fits(line[1], other[1]) for other in others)]


def without(pairs):
    return [("", text) for text in pairs]


def row(name, found, least):
    """A row that holds where nothing is found wrong, of as many lines at the least."""
    return told_rows.Row(name, lambda _: (not found and least, found or "too few are read"))


def rows():
    lines, told, said = log_lines(), told_lines(), said_lines()
    runbook, serve = list(runbook_lines()), list(serve_lines())
    # `.. over HTTP` stands for five lines in SERVE.
    serve_as_told = [(level, re.sub(r"^(leave|drain|release|limits) \.\.$", r"\1 over HTTP", text)) for level, text in serve]
    refusals = [texts_of(one[0])[0] for one in tables("docs/operate/RUNBOOK.md")["It refuses to start"][1:]]
    supervisor = [text for one in tables("docs/operate/RUNBOOK.md")["The supervisor"][1:] for text in texts_of(one[0])]
    yield row("each log line of the sources has a row in the runbook, with its level", unmatched(lines, runbook), len(lines) > 40)
    yield row("each row of the runbook is a log line of the sources", unmatched(runbook, lines), len(runbook) > 40)
    yield row("each log line of the sources has a row in docs/operate/SERVE.md", unmatched(lines, serve_as_told), len(serve) > 30)
    yield row("each row of docs/operate/SERVE.md is a log line of the sources", unmatched(serve_as_told, lines), len(serve) > 30)
    yield row("each line by which a start is refused has a row", unmatched(without(told), without(refusals)), len(told) > 10)
    yield row("each line of the supervisor has a row", unmatched(without(said), without(supervisor)), len(said) > 10)
    yield row("each row of the supervisor is a line of it", unmatched(without(supervisor), without(said)), len(supervisor) > 10)
    reasons, told_reasons = causes(), cause_rows()
    yield row("each reason of a failed refresh has a row", [one for one in reasons if one not in told_reasons and not one.startswith(HOLE)], len(reasons) > 10)
    yield row("each such row is a reason", [one for one in told_reasons if one not in reasons and not one.startswith(HOLE)], len(told_reasons) > 10)
    statuses = {status for one in tables("docs/operate/SERVE.md")["Ending it"] for status in re.findall(r"^\d+$", one[0])}
    written = {status for one in tables("docs/operate/RUNBOOK.md")["Exit statuses"] if one[1] == "`serve`" for status in re.findall(r"\d+", one[0])}
    yield row("the exit statuses are those of docs/operate/SERVE.md", sorted(statuses ^ written), statuses)


if __name__ == "__main__":
    sys.exit(told_rows.main(list(rows())))
