#!/usr/bin/env python3
"""Reads the definitions of crates/*/specs, and follows what they speak of. A part of tools/claim.py, which says the rule."""
import collections
import functools
import itertools
import pathlib
import re

ROOT = pathlib.Path(__file__).resolve().parent.parent
CRATES = ROOT / "crates"

WORD = re.compile(r"\.?[^\W\d]\w*'*(?:\.[^\W\d]\w*'*)*")
MODIFIERS = {"pub", "abbrev", "unfoldable", "opaque"}
USE = re.compile(r"^\s*(?:pub |ghost )*use (Rattle\.[\w.+-]+?)(?:\.\{(.*?)\}| as ([\w']+))?;?$")


class Definition:
    """A definition: its module, its name, its lines (number and text), and the parameters of the modules around it."""

    def __init__(self, module, name, around):
        self.module, self.name, self.around = module, name, around
        self.lines, self.members, self.is_type, self.is_record = [], [], False, False

    @property
    def is_head(self):
        """Whether this is the line of a module or of `mutual`, which others stand under."""
        return self.name.startswith("+")

    @property
    def label(self):
        return f"{self.module.name}.{self.name}"


class Module:
    """A file of definitions: what it defines, and what its `use` lines bring."""

    def __init__(self, path):
        self.path = path
        parts = path.relative_to(CRATES).with_suffix("").parts
        self.name = "Rattle." + ".".join(parts)
        self.definitions, self.types, self.names, self.aliases = {}, {}, {}, {}
        code = [(number, strip(text)) for number, text in enumerate(path.read_text().splitlines(), 1)]
        read_uses((text for _, text in code), self.names, self.aliases)
        self.read_block([it for it in code if it[1].strip() and not it[1].lstrip().startswith(("use ", "pub use ", "pub mod "))], 0, None)

    def read_block(self, lines, indent, around):
        """Reads the definitions whose first lines are indented so far."""
        at = 0
        while at < len(lines):
            end = at + 1
            while end < len(lines) and depth(lines[end][1]) > indent:
                end += 1
            words = lines[at][1].split()
            if words[0] == "module" or words[-1] == "mutual":
                header = self.add(f"+{lines[at][0]}", around)
                header.lines.append(lines[at])
                self.read_block(lines[at + 1 : end], indent + 2, header)
            else:
                self.read_definition(lines[at:end], around)
            at = end

    def read_definition(self, lines, around):
        words = list(itertools.dropwhile(MODIFIERS.__contains__, lines[0][1].split()))
        is_type = words[0] in ("data", "record", "definition")
        name = words[1] if is_type else words[0]
        found = self.definitions.get(name) or self.add(name, around)
        found.lines += lines
        if is_type:
            found.is_type, found.is_record = True, words[0] == "record"
            found.members = [it for _, text in lines[1:] if depth(text) == depth(lines[0][1]) + 2 for it in own_names(text)]
            if not found.is_record:
                self.types.update((it, name) for it in found.members)

    def add(self, name, around):
        self.definitions[name] = Definition(self, name, around)
        return self.definitions[name]

    def defines(self, name):
        """The definition of a name or of the type that a constructor is of, if it is of this file."""
        return self.definitions.get(name) or self.definitions.get(self.types.get(name))


def depth(text):
    return len(text) - len(text.lstrip())


def strip(text):
    """A line without its comment and without what stands in quotes."""
    return re.sub(r'"(?:[^"\\]|\\.)*"', '""', text).partition("--")[0].rstrip()


def own_names(text):
    """The names of the constructors or the field of a line."""
    return [it for it in text.partition(" :")[0].split() if it not in MODIFIERS]


def read_uses(texts, names, aliases):
    """Puts what `use` lines bring into names (name: module and the name there) and aliases (alias: module)."""
    for text in texts:
        if found := USE.match(text):
            module, listed, alias = found.groups()
            module = home(module)
            if alias:
                aliases[alias] = module
            for word in (listed or "").split(", "):
                name, _, other = word.strip().partition(" as ")
                names[other or name] = (module, name)


@functools.cache
def home(name):
    """Where a module stands that a crate may hand on from one below by a `pub use` line."""
    root, crate, *rest = name.split(".")
    folder = CRATES / crate
    if len(rest) < 2 or not folder.is_dir() or folder.joinpath(*rest).with_suffix(".antt").is_file():
        return name
    handing = folder.joinpath(*(rest[:-1] if len(rest) > 2 else [*rest[:-1], "Lib"])).with_suffix(".antt")
    given = re.compile(rf"^pub use (Rattle\.[\w.+-]+\.{re.escape(rest[-1])})$", re.M)
    found = handing.is_file() and given.search(handing.read_text())
    return home(found[1]) if found else name


@functools.cache
def module(name):
    """The module of a name, or none where it is the kit's or a type of code."""
    parts = name.split(".")
    path = CRATES.joinpath(*parts[1:]).with_suffix(".antt")
    return Module(path) if path.is_file() else None


# ---- what a definition speaks of


def bound_names(chunk, is_constructor):
    """The names that a signature, an equation or a record's line binds."""
    bound = set()
    for names in re.findall(r"[({]((?:[^\W\d]\w*'* )+):", chunk):
        bound.update(names.split())
    for names in re.findall(r"λ ((?:[^\W\d]\w*'* ?)+)\.", chunk):
        bound.update(names.split())
    bound.update(re.findall(r"\blet ([^\W\d]\w*'*)", chunk))
    left, *right = re.split(r"\s=\s", chunk, maxsplit=1)
    if right and ":" not in left:
        bound.update(it for it in WORD.findall(left)[1:] if it[0].islower() and "." not in it and not is_constructor(it))
    return bound


def chunks(definition):
    """A definition's signature and equations apart, or a type's head, constructors and fields: lines with those that go on behind them."""
    first, found = depth(definition.lines[0][1]) + 2 * definition.is_type, []
    for _, text in definition.lines:
        if not found or depth(text) == first:
            found.append(text)
        else:
            found[-1] += "\n" + text
    return found


def words_of(text):
    """The names in a text: not fields that are taken, and not fields that are given in braces."""
    for found in WORD.finditer(text):
        behind = text[found.end() : found.end() + 3]
        if not found[0].startswith(".") and not (re.match(r"\s=\s", behind) and re.search(r"[{;]\s*$", text[: found.start()])):
            yield found[0]


class Names:
    """What names mean in a file: its own definitions, what `use` lines bring, and aliases."""

    def __init__(self, names, aliases, own=None):
        self.names, self.aliases, self.own = names, aliases, own

    def meaning(self, word):
        """The module and the name there that a word means; none for what is no name of a definition."""
        head, _, rest = word.partition(".")
        if self.own and self.own.defines(head):
            return self.own.name, head
        if head in self.names:
            return self.names[head]
        if head in self.aliases and rest:
            return self.aliases[head], rest.partition(".")[0]
        return None

    def spoken_of(self, texts, around=frozenset()):
        """What texts speak of, each with names of its own."""
        for text in texts:
            bound = around | bound_names(text, lambda it: self.is_constructor(it))
            for word in words_of(text):
                head = word.partition(".")[0]
                if head not in bound or (word != head and head in self.aliases and self.is_defined(self.meaning(word))):
                    if meant := self.meaning(word):
                        yield meant

    def is_constructor(self, word):
        meant = self.meaning(word)
        own = meant and module(meant[0])
        return bool(own and meant[1] in own.types)

    def is_defined(self, meant):
        own = meant and module(meant[0])
        return bool(own and own.defines(meant[1]))


def parameters(header):
    """The names that the modules around a definition bind."""
    bound = set()
    while header:
        bound |= bound_names(header.lines[0][1], lambda it: False)
        header = header.around
    return bound


def spoken_of(definition):
    own = definition.module
    bound = parameters(definition.around)
    if definition.is_type:
        bound |= bound_names(definition.lines[0][1], lambda it: False)
        bound |= set(definition.members) if definition.is_record else set()
    yield from Names(own.names, own.aliases, own).spoken_of(chunks(definition), frozenset(bound - {definition.name}))


class Closure:
    """All definitions that some names speak of, and the names of the kit and of code at which that ends."""

    def __init__(self, starts):
        self.found, self.kit, self.code = {}, set(), set()
        waiting = list(starts)
        while waiting:
            name, word = waiting.pop()
            own = module(name)
            definition = own and own.defines(word)
            if definition is None and own and word in own.names:
                # the file hands on a definition of another, by a `pub use` line
                waiting.append(own.names[word])
            elif definition is None:
                self.end(name, word)
            else:
                while definition and definition.label not in self.found:
                    self.found[definition.label] = definition
                    waiting += spoken_of(definition)
                    definition = definition.around

    def end(self, name, word):
        """Keeps a name that is not followed; one that is of our own and isn't there is a fault of the tool."""
        if ".declared." in name:
            self.code.add(name)
        elif (CRATES / name.split(".")[1]).is_dir():
            raise SystemExit(f"{name} has no {word}, which another file names")
        else:
            self.kit.add(name)

    @property
    def count(self):
        return sum(not it.is_head for it in self.found.values())

    def by_file(self):
        """The definitions of each file, in reading order of files and of lines."""
        files = collections.defaultdict(list)
        for definition in self.found.values():
            files[definition.module.path].append(definition)
        return [(path, sorted(files[path], key=lambda it: it.lines[0][0])) for path in sorted(files, key=reading_place)]

    @property
    def lines(self):
        return sum(len(it.lines) for it in self.found.values())


@functools.cache
def reading_order():
    """The files of specs in the order in which the Lib files have them, crate by crate as in crates.txt."""
    order = []
    for line in (ROOT / "crates.txt").read_text().splitlines():
        if line and not line.startswith("#"):
            order += listed_files(CRATES / line.partition(":")[0] / "specs", "Lib")
    return {path: place for place, path in enumerate(order)}


def listed_files(folder, name):
    path = folder / f"{name}.antt"
    if not path.is_file():
        return []
    inner = folder if name == "Lib" else folder / name
    below = [it for word in re.findall(r"^pub mod (\w+)", path.read_text(), re.MULTILINE) for it in listed_files(inner, word)]
    return [path] + below


def reading_place(path):
    return reading_order().get(path, len(reading_order())), str(path)


def short(path):
    """A file's name as pages have it: without the folder of the definitions."""
    name = str(path.relative_to(CRATES).with_suffix(""))
    return name.removeprefix("definitions/specs/")
