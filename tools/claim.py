#!/usr/bin/env python3
"""Follows names through the definitions, from a public clause or a definition to all that it speaks of, and counts lines.

usage: claim.py START..      the definitions that these speak of, file by file in reading order, with their lines
       claim.py --write      puts the numbers into docs/CLAIM.md and docs/PROVED.md
       claim.py --check      tells where a number there is another, and each call or definition there that isn't; status 1 if there is one

A START is `run` or `check` (clause `headline` of that call of sqlr::Session), `both`, a call (`lexer::lex`: all its clauses;
`catalog::Table`: those of all its public calls), a clause of one (`sqlr::Session::run.runs`), or a definition with as much of its module
as tells it (`KeepsHeadline`, `Queries.Outcomes.AllowedOf`).

The rule. A definition is a name of a file of crates/*/specs with all its equations, constructors or fields. Each name in it leads to what
that name means there: what the file itself defines, else what its `use` lines bring, by itself or behind an alias. A constructor leads to
its type. A field is no step of its own: the type that it is of is always named. Names that are bound in the same signature, equation or
record lead nowhere. A definition within `module` speaks of what the module's parameters do. A call that says something of `self` speaks of
what its type is seen as. Counted are the lines of the definitions that are reached and the heads of modules around them, and no imports,
blank lines or comments. What the kit has (`Rattle.std`, csv, clap) and types of code (`declared`) are told and not counted.

In the pages the tool fills the numbers of a table by its first cell: under `call` and `claim`, the calls there; under `definition`, what is
defined there. Between `<!-- claim.py START -->` and `<!-- end -->` it puts the files and definitions that a START speaks of, or by the word
`parts` which files are which part of the counts.
"""
import functools
import re
import sys

import definitions
from definitions import CRATES, ROOT, Closure, Names, module, short

# Short words for the clauses that the project's claim is.
CLAIMS = {"run": ["sqlr::Session::run.headline"], "check": ["sqlr::Session::check.headline"]}
CLAIMS["both"] = CLAIMS["run"] + CLAIMS["check"]

PAGES = [ROOT / "docs/CLAIM.md", ROOT / "docs/PROVED.md"]

# The parts of what has to be read: files, and folders with a slash behind; what is left is of other crates.
PARTS = {
    "text": "Characters Limits Refusal Word Token Lexing Printing",
    "statements": "Statement Rule Grammar",
    "values": "Lists Value Arithmetic ValueType Truth Pattern",
    "tables": "Table Key IndexRun Statistics Change Invariant Scanning Loading Faults IndexFaults",
    "binding": "Binding/",
    "queries": "Queries/",
    "estimates": "Estimates/",
    "plans": "Plans/",
    "certificates": "Certificates/",
    "runs": "definitions_execution/ definitions_answers/",
    "views": "",
}

CALL = re.compile(r"\bfn (\w+)\b")


class Missing(Exception):
    """A call or a definition that isn't there."""


# ---- where to start


@functools.cache
def sources(crate):
    return [it.read_text() for it in sorted((CRATES / crate / "src").rglob("*.rt"))]


def stands_on(crate):
    """A crate, and those of the repository that it stands on."""
    lines = (ROOT / "crates.txt").read_text().splitlines()
    used = next((it.split(":")[1].split() for it in lines if it.startswith(f"{crate}:")), [])
    return [crate, *(it for it in used if (CRATES / it).is_dir())]


def functions(crate, owner, name):
    """The public functions of a name, or all of a type: the file's text, and where each begins. A crate may hand on those of one below."""
    for below in stands_on(crate):
        found = [
            (text, it.start())
            for text in sources(below)
            for it in CALL.finditer(text)
            if name in (None, it[1]) and is_public(text, it.start()) and owner in (None, owner_of(text, it.start()))
        ]
        if found:
            return found
    raise Missing(f"no public call {'::'.join(it for it in (crate, owner, name) if it)}")


def is_public(text, at):
    """Whether the function at a place is public, or of a trait."""
    front = text[text.rfind("\n", 0, at) + 1 : at].strip()
    return front == "pub" or (front == "" and bool(re.match(r"(pub )?trait |impl\b.* for ", block_head(text, at))))


def block_head(text, at):
    """The line that opens the block around a function; empty where it stands for itself."""
    if text[text.rfind("\n", 0, at) + 1] != " ":
        return ""
    return next(it for it in reversed(text[:at].splitlines()) if it and it[0] not in " }/#")


def owner_of(text, at):
    """The type or the trait that a function stands in."""
    found = re.match(r"(?:impl(?:<.*?>)? (?:.* for )?|(?:pub )?trait )&?(?:'\w+ )?(\w+)", block_head(text, at))
    return found and found[1]


def parameter_names(text, at):
    """The names that a function at a place gives its parameters."""
    begin = text.index("(", at)
    return frozenset(re.findall(r"(\w+):", text[begin : behind_pair(text, begin, "()")]))


def clauses(text, at):
    """The clauses of the function at a place: names and words."""
    at = behind_pair(text, text.index("(", at), "()")
    clause = re.compile(r"[^{;]*?\b(?:ensures|requires|decreases)\s*([\w-]*)\s*\{")
    while found := clause.match(text, at):
        at = behind_pair(text, found.end() - 1, "{}")
        yield found[1], text[found.end() : at - 1]


def behind_pair(text, at, pair):
    """The place behind the bracket that closes the one at a place."""
    still_open = 0
    for place in range(at, len(text)):
        still_open += (text[place] == pair[0]) - (text[place] == pair[1])
        if not still_open:
            return place + 1
    return len(text)


def spoken_of(text, words, bound=frozenset()):
    """What words of a file of code speak of, by its `ghost use` lines."""
    names, aliases = {}, {}
    definitions.read_uses(text.splitlines(), names, aliases)
    return list(Names(names, aliases).spoken_of(words, bound))


def seen_as(crate, owner):
    """What a type of code is seen as."""
    for text in sources(crate):
        if found := re.search(rf"\bModel for {owner}\b[^{{]*\{{.*?ghost Value = \{{(.*?)\}};", text, re.DOTALL):
            return spoken_of(text, [found[1]])
    return []


def starts_of_call(word):
    path, _, clause = word.partition(".")
    crate, *inner = path.split("::")
    name = inner.pop() if inner and inner[-1][0].islower() else None
    owner = inner[0] if inner else None
    starts = []
    for text, at in functions(crate, owner, name):
        words = [it for label, it in clauses(text, at) if clause in ("", label)]
        starts += spoken_of(text, words, parameter_names(text, at))
        if not clause and owner and any(re.search(r"\bself\b", it) for it in words):
            starts += seen_as(crate, owner)
    return starts


@functools.cache
def modules():
    return [module("Rattle." + ".".join(it.relative_to(CRATES).with_suffix("").parts)) for it in sorted(CRATES.glob("*/specs/**/*.antt"))]


def definition_named(word):
    """The module and the name of a definition that is told by the end of its module's name and its own; of several, the only one of the
    crates of definitions that is no example."""
    *front, name = word.replace("/", ".").split(".")
    found = [it for it in modules() if name in it.definitions and it.name.split(".")[len(it.name.split(".")) - len(front) :] == front]
    if len(found) > 1:
        found = [it for it in found if it.name.startswith("Rattle.definitions") and "Examples" not in it.name] or found
    if len(found) != 1:
        raise Missing(f"{len(found)} definitions are named {word}: {', '.join(it.name for it in found)}")
    return found[0].name, name


@functools.cache
def closure(*words):
    """What all these STARTs speak of."""
    starts = []
    for word in (inner for it in words for inner in CLAIMS.get(it, [it])):
        starts += starts_of_call(word) if "::" in word else [definition_named(word)]
    return Closure(starts)


def tell(words):
    found = closure(*words)
    for path, inside in found.by_file():
        print(f"{sum(len(it.lines) for it in inside):5} {short(path)}: {', '.join(names(inside))}")
    print(f"{found.lines} lines of {found.count} definitions in {len(found.by_file())} files")
    print(f"of the kit: {', '.join(sorted(found.kit))}")
    print(f"types of code: {', '.join(sorted(found.code))}")


def names(inside):
    return [it.name for it in inside if not it.is_head]


# ---- the pages


def calls_in(cell, before):
    """The calls that a cell names, each in full. What has no crate, or no type, has that of the name before it."""
    calls, crate, owner, is_type_alone = [], *before, False
    for path in (it for word in re.findall(r"`([^`]+)`", cell) for it in with_each(word)):
        path, _, clause = path.partition(".")
        for place, word in enumerate(path.split("::")):
            if place == 0 and "::" in path and (CRATES / word).is_dir():
                crate, owner, is_type_alone = word, None, False
            elif word[0].isupper():
                owner, is_type_alone = word, True
                calls.append(f"{crate}::{owner}")
            else:
                if is_type_alone:
                    calls.pop()
                is_type_alone = False
                calls.append("::".join(it for it in (crate, owner, word) if it) + (clause and f".{clause}"))
    return calls, (crate, owner)


def with_each(word):
    """`a::{b, c}` as `a::b` and `a::c`."""
    front, brace, rest = word.partition("{")
    return [front + it.strip() for it in rest.rstrip("}").split(",")] if brace else [word]


def part_of(name):
    """The part that a file is of."""
    return next(it for it, files in PARTS.items() if not files or any(is_in(name, word) for word in files.split()))


def is_in(name, word):
    return name.startswith(word) if word.endswith("/") else name == word


def by_part(found):
    """The lines of each part, and their sum."""
    counts = dict.fromkeys(PARTS, 0)
    for path, inside in found.by_file():
        counts[part_of(short(path))] += sum(len(it.lines) for it in inside)
    return [str(it or "") for it in counts.values()] + [str(found.lines)]


def filled(head, cells, context):
    """The cells of a table's row with the tool's numbers, and the crate and the type that the next row goes on from."""
    kind = head[0]
    if kind == "definition":
        owner, name = definition_named(re.search(r"`([^`]+)`", cells[0])[1])
        own = module(owner).definitions[name]
        return [cells[0], f"`{short(own.module.path)}`:{own.lines[0][0]}", str(len(own.lines)), *cells[3:]], context
    cells += [""] * (len(head) - len(cells))
    calls, context = calls_in(cells[0], context)
    if not calls:
        raise Missing(f"no call in: {cells[0]}")
    numbers = [str(closure(*calls).lines)] if kind == "call" else by_part(closure(*calls))
    return cells[: len(head) - len(numbers)] + numbers, context


def reading(words):
    """The files that some STARTs speak of, with the definitions to read in each."""
    found = closure(*words)
    yield f"{found.lines} lines of {found.count} definitions in {len(found.by_file())} files, each resting on those before it:"
    yield ""
    yield from ["| file | lines | definitions |", "| --- | --- | --- |"]
    for path, inside in found.by_file():
        yield f"| `{short(path)}` | {sum(len(it.lines) for it in inside)} | {', '.join(f'`{it}`' for it in names(inside))} |"


def parts():
    """The files of each part."""
    yield from ["| part | files |", "| --- | --- |"]
    for part, files in PARTS.items():
        shown = ", ".join(f"`{it}`" for it in files.split())
        yield f"| {part} | {shown or 'what other crates see values of code as'} |"


def cells_of(line):
    return [it.strip() for it in line.strip("|\n").split("|")]


def page_with_numbers(text):
    """A page with the tool's numbers in place of its own."""
    lines, head, context, skips = [], None, (None, None), False
    for line in text.splitlines():
        if skips and line != "<!-- end -->":
            continue
        skips = False
        if not line.startswith("|"):
            head, context = None, (None, None)
        elif head is None:
            head = cells_of(line)
        elif head[0] in ("call", "claim", "definition") and not line.startswith("| ---"):
            cells, context = filled(head, cells_of(line), context)
            line = f"| {' | '.join(cells)} |"
        lines.append(line)
        if start := re.fullmatch(r"<!-- claim\.py (.+) -->", line):
            lines += parts() if start[1] == "parts" else reading(start[1].split())
            skips = True
    return "\n".join(lines) + "\n"


def unknown_names(text):
    """Definitions that tables of calls name and that aren't there."""
    for line in text.splitlines():
        cells = cells_of(line)
        if line.startswith("|") and len(cells) == 4:
            for word in re.findall(r"`([^`]+)`", cells[2]):
                yield from (it for it in with_each(word) if not is_there(it))


@functools.cache
def all_names():
    """The paths of all files of definitions, and of what they define."""
    files = {it: str(it.path.with_suffix("")) for it in modules()}
    return [path + inner for it, path in files.items() for inner in ("", *(f"/{name}" for name in (*it.definitions, *it.types)))]


def is_there(word):
    """Whether a file or a definition of a name is there, by the end of its path."""
    return any(it.endswith("/" + word.replace(".", "/")) for it in all_names())


def check(writes):
    """Compares the pages with the tool's numbers, or puts them there. Whether all is well."""
    faults = 0
    for page in PAGES:
        text = page.read_text()
        wanted = page_with_numbers(text)
        if writes:
            page.write_text(wanted)
            text = wanted
        told = [f"has '{it[0]}' for '{it[1]}'" for it in zip(text.splitlines(), wanted.splitlines()) if it[0] != it[1]]
        told += ["has other lines"] if text != wanted and not told else []
        told += [f"names {it}, which isn't there" for it in unknown_names(text)]
        for it in told:
            print(f"{page.name} {it}")
        faults += len(told)
    print(f"{len(PAGES)} pages with the numbers of the definitions, {faults} faults")
    return not faults


def main():
    words = sys.argv[1:]
    try:
        if words in (["--write"], ["--check"]):
            sys.exit(not check(words == ["--write"]))
        if not words or words[0].startswith("-"):
            sys.exit(__doc__)
        tell(words)
    except Missing as fault:
        sys.exit(str(fault))


if __name__ == "__main__":
    main()
