#!/usr/bin/env python3
"""What there is to read before one of the great claims means what it says: the definitions in specs/ that it stands on, by their
names. It follows names through imports, and stops at the types that the code declares and at the words of the toolchain's library
and of the kit's crates, which it lists. Comments, blank lines and imports are not counted. Of a promise of the running service it
begins with the words of the contracts of the functions that carry it, as these import them.

usage: scripts/count_definitions.py                prints the parts, a table for each claim
       scripts/count_definitions.py --write FILE   writes them between the marks of a document (docs/trust/TRUST.md)
"""
import collections
import pathlib
import re
import sys

from marked import write_part

ROOT = pathlib.Path(__file__).resolve().parent.parent / "crates"
CLAIMS = [
    ("An optimal plan", "what *best* of `allocd check` and `allocd plan` says", ["IsOptimal"]),
    ("The verdict of `check`", "when it is best, and else which fault it names with which numbers", ["price_certificate.verdict_of", "IsCertified"]),
    ("A spread", "what *capped* and *even* of `allocd check` say of a plan", ["spread_certificate.IsBestWithin", "IsEvenWithin"]),
    ("A best allocation", "what *best of its moment* says of a published allocation", ["IsBest"]),
    ("The whole headline", "all steps of the machine, every published allocation and every booked report", ["AlwaysBest", "AlwaysMost", "AlwaysBooked"]),
    ("Events from a first line", "what is promised of events from whatever state a first line opens", ["IsPromised"]),
]
# What the running service promises: which public function carries it, and which contracts, or clauses of them, say it.
PROMISES = [
    ("A list that was answered", "what a list was answered is of the one history that the journal has, and kept before", "sd_server Handler::entry",
     [("sd_server", "handler.rt", "entry", {"kept", "moves"}), ("sd_server", "collector_lists.rt", "collector", None)]),
    ("An event that was answered", "what an event was answered is the answer to an entry of the one history that the journal has, and kept before", "sd_server Handler::entry",
     [("sd_server", "handler.rt", "entry", {"kept", "moves"}), ("sd_server", "entering.rt", "entered", None)]),
    ("The journal's file", "over all desks, reloads and renewals the file of a device that tells its bytes leads to the allocator that is served", "service_tasks continued",
     [("daemon", "serving.rt", "serve", None), ("daemon", "one_desk.rt", "serve_desk", None), ("service_tasks", "renewing.rt", "continued", None)]),
]
HEAD = re.compile(r"(?:abbrev |unfoldable )?pub (?:record |rec )?([^\s:({]+)")
WORD = re.compile(r"◌\S+?◌|[A-Za-z_][\w'-]*")
USE = re.compile(r"^(?:abbrev |unfoldable |pub )*use (Rattle\.[\w.]+?)(?:\.\{([^}]*)\})?$", re.M)
USED_BY_CODE = re.compile(r"^ghost use (Rattle\.[\w.]+?)\.\{([^}]*)\};$", re.M)
CLAUSE = re.compile(r"\s+(?:ensures|requires)\*? (\w*) *\{(.*)\}$")


def imports_of(text, use=USE):
    """For each name that stands in a file by an import: its module, and its name there."""
    found = {}
    for base, names in use.findall(text):
        for name in filter(None, map(str.strip, names.split(","))):
            there, _, here = name.partition(" as ")
            found[(here or there).strip()] = base, there.strip()
    return found


def read_all():
    """All definitions by (crate, module, name): how many lines, and which words stand in them; and each module's imports."""
    definitions, imports = {}, {}
    for file in sorted(ROOT.glob("*/specs/**/*.antt")):
        crate, _, *parts = file.relative_to(ROOT).with_suffix("").parts
        module, key = ".".join(parts), None
        if module == "Lib":
            continue
        text = file.read_text()
        imports[crate, module] = imports_of(text)
        is_inside = False
        for line in text.splitlines():
            line = re.sub(r"(^|\s)--.*", "", line).rstrip()
            # in a block with parameters, definitions stand two columns further on
            is_inside = line.startswith("module ") or is_inside and (not line or line[0] == " ")
            if line.startswith("module "):
                continue
            line = line[2:] if is_inside else line
            if not line or line.startswith(("use ", "pub use ", "infix", "pub mod ")):
                continue
            head = HEAD.match(line)
            if head:
                key = crate, module, head[1]
                definitions.setdefault(key, [0, set()])
            if key:
                definitions[key][0] += 1
                definitions[key][1].update(WORD.findall(line))
    return definitions, imports


def resolve(definitions, imports, place, word):
    """The definition that a word means at a place, or the name of what lies outside of specs/, if it is a name."""
    if (*place, word) in definitions:
        return (*place, word), None
    base, name = imports.get(place, {}).get(word, ("", ""))
    found = re.fullmatch(r"Rattle\.(\w+)\.specs\.(.+)", base)
    if found and (found[1], found[2], name) in definitions:
        return (found[1], found[2], name), None
    return None, base or None


def closure(definitions, imports, starts):
    seen, outside, left = set(), set(), list(starts)
    while left:
        key = left.pop()
        if key in seen:
            continue
        seen.add(key)
        for word in definitions[key][1]:
            inside, base = resolve(definitions, imports, key[:2], word)
            if inside:
                left.append(inside)
            elif base:
                outside.add((base, word))
    return seen, outside


def outside_in_words(outside):
    """The declared types by their crates, and the modules of the toolchain's library and of the kit's crates."""
    declared, library = collections.defaultdict(set), set()
    for base, word in outside:
        found = re.match(r"Rattle\.(\w+)\.specs\.declared\.(?:\w+\.)*?([A-Z]\w+)", base)
        if found and (ROOT / found[1]).is_dir():
            declared[found[1]].add(found[2])
        else:
            library.add(re.sub(r"^Rattle\.(\w+)\.specs\.", r"\1 ", base).replace("Rattle.", "", 1))
    types = [f"`{name}`" for crate in sorted(declared) for name in sorted(declared[crate] - {"TheVariants", "TheConstants"})]
    return ", ".join(types), ", ".join(f"`{it}`" for it in sorted(library))


def clauses_of(crate, file, function):
    """The clauses of a function's contract by their names, in order, and what its file imports for them."""
    text = (ROOT / crate / "src" / file).read_text()
    heads = re.findall(rf"^(?: *(?:pub(?:\(crate\))? )?fn {function}\b[\s\S]*?)(?:^ *\{{$|\{{\n)", text, re.M)
    if len(heads) != 1:
        sys.exit(f"{crate} {file}: {len(heads)} functions are {function}")
    return [found.groups() for found in map(CLAUSE.match, heads[0].splitlines()) if found], imports_of(text, USED_BY_CODE)


def starts_of(definitions, contracts):
    """The definitions that these contracts name. Of a contract all clauses are read where none has one of the wanted names."""
    starts = []
    for crate, file, function, wanted in contracts:
        clauses, imports = clauses_of(crate, file, function)
        picked = [text for name, text in clauses if wanted and name in wanted] or [text for _, text in clauses]
        if not picked:
            sys.exit(f"{crate} {file}: {function} has no contract")
        words = {word for text in picked for word in WORD.findall(text)}
        starts += filter(None, (resolve(definitions, {("", ""): imports}, ("", ""), word)[0] for word in sorted(words)))
    return list(dict.fromkeys(starts))


def promise(definitions, imports, title, says, carrier, contracts):
    functions = ", ".join(f"`{function}` of `{crate}`" for crate, _, function, _ in contracts)
    yield from table(definitions, imports, title, f"{says}. `{carrier.split(' ')[1]}` of `{carrier.split(' ')[0]}` carries it; by the contracts of {functions}", starts_of(definitions, contracts))


def part(definitions, imports, title, says, names):
    # a name that several crates have is told with its crate
    starts = [key for key in definitions if key[2] in names or f"{key[0]}.{key[2]}" in names]
    if len(starts) != len(names):
        sys.exit(f"{title}: {names} are {starts}")
    shown = ", ".join(f"`{it.rpartition('.')[2]}`" for it in names)
    yield from table(definitions, imports, title, f"{says}: {shown}", starts)


def table(definitions, imports, title, says, starts):
    seen, outside = closure(definitions, imports, starts)
    lines = sum(definitions[key][0] for key in seen)
    modules = collections.defaultdict(list)
    for key in definitions:
        if key in seen:
            modules[key[:2]].append(key[2])
    yield f"### {title}: {len(seen)} definitions, {lines} lines\n\n"
    crates = len({crate for crate, _ in modules})
    yield f"{says[0].upper() + says[1:]}, in {len(modules)} files of {crates} crate{'s' * (crates > 1)}.\n\n"
    yield "| File | Lines | Definitions |\n|---|---|---|\n"
    for (crate, module), found in sorted(modules.items()):
        count = sum(definitions[crate, module, name][0] for name in found)
        yield f"| `{crate}` `{module.replace('.', '/')}` | {count} | {', '.join(f'`{it}`' for it in found)} |\n"
    types, library = outside_in_words(outside)
    yield f"\nTypes as the code declares them: {types or 'none'}. Words from outside: {library}.\n\n"


def main():
    definitions, imports = read_all()
    text = "".join("".join(part(definitions, imports, *claim)) for claim in CLAIMS)
    text += "".join("".join(promise(definitions, imports, *it)) for it in PROMISES)
    text += f"All of `specs/`: {len(definitions)} definitions, {sum(lines for lines, _ in definitions.values())} lines.\n"
    if len(sys.argv) == 3 and sys.argv[1] == "--write":
        write_part(sys.argv[2], "counted definitions", text)
    elif len(sys.argv) == 1:
        print(text, end="")
    else:
        sys.exit(__doc__)


main()
