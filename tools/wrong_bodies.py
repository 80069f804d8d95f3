#!/usr/bin/env python3
"""Tries wrong bodies, which the prover has to refuse, and right ones of the same shape, which it has to prove.

usage: wrong_bodies.py [--all] [--look] [--over CHECKOUT] [CRATE | CRATE/NAME ..]

A wrong body is a file crates/CRATE/wrong/NAME.edit in the form of the gate's own edits (must-fail/): a line that says what it gets wrong,
'file: src/F.rt', and pairs of 'old: TEXT' and 'new: TEXT', each TEXT one line that stands once in that file. Where it adds an arm or a path,
NAME.right beside it is a right body of the same shape: so it is the wrong value that is refused, and not the shape.

Each is tried on a copy of its crate, of which the functions that it changes are proved, with those that they call. The libraries below are those
that tools/build.py keeps, and what isn't built is built first; or with --over those that the gate (`rt ci`) made in a checkout of the same
sources. docs/WRONG_BODIES.md has a row for each: where it was refused, and a sum of its text and of all that its crate is built of. A body
whose sum stands there is not tried again, unless --all is given. --look tries nothing: it tells how many there are, and how many are stale.
The status is 1 where a body can't be applied, or the prover didn't say of it what it should.
"""
import argparse
import concurrent.futures
import hashlib
import pathlib
import re
import shutil
import subprocess
import sys
import tempfile
import threading

import build

PAGE = build.ROOT / "docs/WRONG_BODIES.md"
HEAD = """# Wrong bodies

Each was put in the place of the code, and the prover refused it where the third column says; a *right* body is one of the same shape as the
wrong one above it, and was proved. `tools/wrong_bodies.py` makes this page, and `./test` tells how many rows are stale: those whose crate, or one
below it, has changed since. The gate tries two more in each run (`crates/*/must-fail`).

| body | what it does | refused at | sum |
| --- | --- | --- | --- |
"""
ROW = re.compile(r"\| `(\S+)` \| (.*) \| (.*) \| `([0-9a-f]{16})` \|")
# What the prover says of a text that it can't read: that says nothing of a contract.
UNREAD = re.compile(r"is not in scope|has no field|is no name|operand is missing|expected the end|cannot continue|has no `")
# A goal that is left, by its name and the file where its proof would stand.
GOAL = re.compile(r"note: `(\S+)` of (?:\./)?proofs/(\S+)/\w+\.antt must prove: (.*)")
ERROR = re.compile(r"(?:\./)?((?:src|specs|proofs)/\S+?):\d+:\d+: error:? ?(.*)")
FUNCTION = re.compile(r" *(?:pub(?:\([^)]*\))? )?(?:const )?fn (\w+)")
IMPL = re.compile(r"impl(?:<.*?>)? (?:(\w+)(?:<.*?>)? for )?(\w+)")
# What a check of some functions says at its end.
ENDED = re.compile(r"only=\d+ proved=\d+|logic=(?:not-)?proved")


class Body:
    """A wrong body, or a right one of its shape."""

    def __init__(self, path):
        self.path, self.crate, self.is_right = path, path.parts[-3], path.suffix == ".right"
        self.label = f"{self.crate}/{path.stem}" + (".right" if self.is_right else "")
        self.says = path.read_text().split("\n", 1)[0]

    def key(self, crate):
        """A sum of its text and of all that its crate is built of."""
        return hashlib.sha256(self.path.read_bytes() + crate.sources.encode()).hexdigest()[:16]

    def pairs(self):
        """The lines that it changes: the file, the old line and the new one of each; a ValueError where it isn't of that form."""
        path, old, found = None, None, []
        for line in self.path.read_text().split("\n"):
            if line.startswith("file: "):
                path = line[len("file: ") :].strip()
                if not path.startswith("src/"):
                    raise ValueError(f"{path} is not in src/")
            elif line.startswith("old: "):
                old = line[len("old: ") :]
            elif line.startswith("new:"):
                if not path or not old:
                    raise ValueError("a 'new:' line has no file or no 'old:' line before it")
                found.append((path, old, line[len("new:") :].removeprefix(" ")))
                old = None
        if not found:
            raise ValueError("it changes nothing")
        return found

    def texts(self, folder):
        """The files that it changes, by their paths in the crate; a ValueError where a line isn't found."""
        changed = {}
        for path, old, new in self.pairs():
            text = changed.get(path) or (folder / path).read_text()
            if text.count(old) != 1:
                raise ValueError(f"what an 'old:' line has does not stand once in {path}")
            changed[path] = text.replace(old, new)
        return changed

    def functions(self, folder):
        """The names of the functions that it changes; none where a line is in no function."""
        found = []
        for path, old, _ in self.pairs():
            text = (folder / path).read_text()
            name = function_around(text[: text.index(old) + len(old)].split("\n"))
            if not name:
                return []
            module = path.removeprefix("src/").removesuffix(".rt").replace("/", "::")
            # A method is called by its type, which may be another module's.
            found.append(name if "::" in name or module in ("lib", "main") else f"{module}::{name}")
        return sorted(set(found))


def function_around(lines):
    """The function that the last of these lines is in, by its name in its module."""
    for place in range(len(lines) - 1, -1, -1):
        function = FUNCTION.match(lines[place])
        if function:
            owner = next((it for it in map(IMPL.match, reversed(lines[:place])) if it), None) if lines[place].startswith(" ") else None
            return f"{owner[2]}{owner[1] or ''}::{function[1]}" if owner else function[1]
        if lines[place].startswith("}"):
            return None
    return None


def bodies(chosen=()):
    """The bodies of the crates or names that are chosen, or all."""
    found = [Body(it) for end in ("edit", "right") for it in build.ROOT.glob(f"crates/*/wrong/*.{end}")]
    chosen = set(chosen)
    return sorted((it for it in found if not chosen or chosen & {it.crate, it.label, it.label.removesuffix(".right")}), key=lambda it: it.label)


def known():
    """What the page says of each body: where it was refused, and the sum."""
    rows = [ROW.fullmatch(it) for it in PAGE.read_text().split("\n")] if PAGE.is_file() else []
    return {it[1]: (it[3], it[4]) for it in rows if it}


def write_page(told):
    """Writes the page anew, with a row for each body of which something is known."""
    rows = [(it.label, it.says.replace("|", "\\|"), *told[it.label]) for it in bodies() if it.label in told]
    PAGE.write_text(HEAD + "".join(f"| `{label}` | {says} | {place} | `{key}` |\n" for label, says, place, key in rows))


def check(body, crate, kit, kept):
    """What a check of what a body changes says: its status and its lines."""
    with tempfile.TemporaryDirectory(prefix="wrong-") as room:
        folder = pathlib.Path(room) / crate.name
        shutil.copytree(crate.folder, folder, ignore=shutil.ignore_patterns("out", "must-fail", "wrong", "data"))
        for path, text in body.texts(crate.folder).items():
            (folder / path).write_text(text)
        only = [word for it in body.functions(crate.folder) for word in ("--only", it)]
        how = {"stdin": subprocess.DEVNULL, "stdout": subprocess.PIPE, "stderr": subprocess.STDOUT, "text": True, "errors": "replace"}
        ran = subprocess.run([*kit.check_words(crate, kept), *only], cwd=folder, **how)
        return ran.returncode, ran.stdout.rstrip("\n").split("\n")


def refused_at(lines):
    """The goal that is left, with the function that it is of; or the proof that is refused; or nothing, if no contract was tried."""
    errors = [it for it in map(ERROR.match, lines) if it]
    if any(it[1].startswith(("src/", "specs/")) and UNREAD.search(it[2]) for it in errors):
        return None
    goals = [it for it in map(GOAL.match, lines) if it]
    if goals:
        return " · ".join(f"`{it[2].replace('/', '::')}`: `{it[1]}`: `{it[3][:120]}`" for it in goals[:2]).replace("|", "\\|")
    said = next((it for it in errors if not UNREAD.search(it[2])), None)
    return f"`{said[1]}`: {said[2][:160]}".replace("|", "\\|") if said else None


def judge(body, crate, kit, kept):
    """Whether the prover says of a body what it should, and where it refused it."""
    try:
        status, lines = check(body, crate, kit, kept)
    except (OSError, ValueError) as why:
        return False, f"can't be applied: {why}"
    ended = bool(ENDED.match(lines[-1]))
    if body.is_right:
        return ended and status == 0, "proved" if ended and status == 0 else f"IS REFUSED: {refused_at(lines) or lines[-1]}"
    if status == 0:
        return False, "IS PROVED"
    place = refused_at(lines) if ended and status == 1 else None
    return (True, place) if place else (False, f"did not reach a contract: {next(filter(ERROR.match, lines), lines[-1])}")


def judge_all(crate, left, kit):
    """Tries the bodies of a crate one after another, and gives each with its sum and what is said of it."""
    with tempfile.TemporaryDirectory(prefix="wrong-") as kept:
        for body, key in left:
            yield body, key, judge(body, crate, kit, kept)


def take_libraries(crates, checkout):
    """Has crates stand on the libraries that the gate made in a checkout; it ends where one isn't there or is of other sources."""
    for crate in {it for crate in crates for it in crate.below}:
        made = checkout / "crates" / crate.name
        for part in ("src", "specs", "proofs"):
            own, other = ({it.relative_to(at): it.read_bytes() for it in at.rglob("*") if it.is_file()} for at in (crate.folder / part, made / part))
            if own != other:
                sys.exit(f"{made / part} has other sources")
        crate.room = made / "out/rlib"
        crate.rlib = crate.room / f"{crate.name}.rlib"
        if not crate.rlib.is_dir():
            sys.exit(f"{crate.rlib} isn't there")


def build_missing(crates, kit):
    """Builds the libraries that crates stand on and that aren't built."""
    for crate in crates:
        missing = [it for it in crate.below if not it.is_built(kit)]
        failed = build.build_all(missing, kit)[0] if missing else None
        if failed:
            sys.exit(f"{failed.name} is not proved: the bodies of {crate.name} were not tried")


def stale_of(chosen, told):
    """The bodies of which the page doesn't tell, with their crates and sums."""
    crates = {name: build.crates_below(name)[-1] for name in {it.crate for it in chosen}}
    keys = {it: it.key(crates[it.crate]) for it in chosen}
    return [(it, crates[it.crate], key) for it, key in keys.items() if told.get(it.label, (None, None))[1] != key]


def look():
    """How many bodies there are and how many are stale, and those that can't be applied."""
    chosen = bodies()
    broken = []
    for it in chosen:
        try:
            it.texts(build.ROOT / "crates" / it.crate)
        except (OSError, ValueError) as why:
            broken.append(f"{it.label} can't be applied: {why}")
    wrong = sum(not it.is_right for it in chosen)
    return wrong, len(chosen) - wrong, len(stale_of(chosen, known())), broken


def try_all(chosen, is_all, over):
    """Tries bodies, tells of each, and writes the page; gives how many were not as they should."""
    kit, told, failed, lock = build.Kit(), known(), 0, threading.Lock()
    left = stale_of(chosen, {} if is_all else told)
    crates = {crate.name: crate for _, crate, _ in left}
    if over:
        take_libraries(crates.values(), over.resolve())
    else:
        build_missing(crates.values(), kit)

    def try_crate(crate):
        nonlocal failed
        for body, key, (is_well, place) in judge_all(crate, [(it, key) for it, of, key in left if of.name == crate.name], kit):
            with lock:
                print(f"{body.label}: {'' if is_well else 'FAILED: '}{place}", flush=True)
                failed += not is_well
                told.pop(body.label, None)
                if is_well:
                    told[body.label] = place, key
                write_page(told)

    with concurrent.futures.ThreadPoolExecutor(build.lanes()) as pool:
        list(pool.map(try_crate, crates.values()))
    print(f"{len(chosen)} bodies, {len(left)} tried, {failed} failed")
    return failed


def main():
    words = argparse.ArgumentParser()
    words.add_argument("--all", action="store_true")
    words.add_argument("--look", action="store_true")
    words.add_argument("--over", type=pathlib.Path)
    words.add_argument("chosen", nargs="*")
    asked = words.parse_args()
    if asked.look:
        wrong, right, stale, broken = look()
        print(*broken, f"{wrong} wrong bodies, {right} right ones, {stale} stale", sep="\n")
        sys.exit(1 if broken else 0)
    sys.exit(1 if try_all(bodies(asked.chosen), asked.all, asked.over) else 0)


if __name__ == "__main__":
    main()
