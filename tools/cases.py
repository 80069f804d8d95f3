#!/usr/bin/env python3
"""Runs the cases of the folder `cases` by the program, and tells where what it prints, says or ends with is not what a case expects.

usage: cases.py PROGRAM [--folder FOLDER] [--count COUNT] [WORD ..]

Words choose cases: those whose names, as load/empty_file, begin with one of them. A case is a text in sections; docs/PROVED.md has their
list. Each case is run in a folder of its own, which has its files. Without a section `messages` exceptions and notes aren't compared, and
nothing else may be said. The last line counts the cases; the status is 1 where one failed, none ran, or others than COUNT.

The program runs one script. So a script is run behind the earlier ones of its case, as one text: what these print and say stands before
and is taken off, lines are counted from its own first line, and the status is that of the worst. No earlier script stands before one whose
text is refused as a whole, and neither such a script nor one whose certificates are checked stands before another. A check prints
nothing of the statements before the last one.
"""
import argparse
import collections
import concurrent.futures
import os
import pathlib
import re
import subprocess
import sys
import tempfile
import urllib.parse

CASES = pathlib.Path(__file__).resolve().parent.parent / "cases"
ENDING = ".case"
# Files of rows lie beside the cases; tools/rows.py asks them.
ROWS_ENDING = ".rows"

# The names by which messages call what is given to the program.
SCRIPT, CERTIFICATES = "script.sql", "script.certificates"

# What stands behind the words of a heading where the ends of the section's lines count for nothing, and %0A is the end of a line.
ENCODED = " percent-encoded"
FIXED = {"script", "certificates", "output", "messages", "status 0", "status 1", "status 2", "status 3"}

# What a script prints whose text is refused as a whole: the byte of its fault.
TEXT_REFUSED = re.compile(rb"error E\d\d \d{5} at \d+\n")
# A line of the script as messages tell it: where they begin, and where their words name another statement.
LINE = re.compile(rb"(^script\.sql:| at )(\d+)(?=:\d)", re.MULTILINE)
# Where a message begins that is neither on an exception nor a note.
REFUSAL = re.compile(rb"^script\.(?:sql|certificates):\d+:\d+: (?!exception |note: )", re.MULTILINE)

Case = collections.namedtuple("Case", "files scripts")
Script = collections.namedtuple("Script", "text certificates output messages status")
# What came of a text.
Ran = collections.namedtuple("Ran", "text printed said status")
NOTHING = Ran(b"", b"", b"", 0)


class CaseFault(Exception):
    """Why a text is no case."""


# ---- reading


def sections(text):
    """The sections behind the comment that a case begins with: the words of each heading, and its bytes."""
    if not text.endswith("\n"):
        raise CaseFault("the last line has no end")
    comment, *parts = text[:-1].split("\n---- ")
    if not comment.startswith("#") or not all(line[:1] in ("", "#") for line in comment.split("\n")):
        raise CaseFault("it begins with no comment: a line with '#' that says where what is expected comes from")
    for part in parts:
        title, _, body = part.partition("\n")
        words = title.removesuffix(ENCODED)
        if words not in FIXED and not words.startswith("file "):
            raise CaseFault(f"'{title}' is no heading: file NAME, script, certificates, output, messages or status N")
        if words != title:
            yield words, urllib.parse.unquote_to_bytes(body.replace("\n", ""))
        else:
            yield words, part[len(title) + 1 :].encode() + b"\n" if "\n" in part else b""


def parse(text):
    """The case of a text."""
    case, begun = Case({}, []), None
    for words, body in sections(text):
        if begun is None:
            begun = begin(case, words, body)
        elif words.startswith("status ") and "output" in begun:
            if body:
                raise CaseFault("text stands behind a status")
            sections_told = (begun.get(it) for it in ("script", "certificates", "output", "messages"))
            case.scripts.append(Script(*sections_told, int(words.removeprefix("status "))))
            begun = None
        elif may_follow(begun, words):
            begun[words] = body
        else:
            raise out_of_place(words)
    if begun is not None or not case.scripts:
        raise CaseFault("it ends before the status of a script")
    return case


def begin(case, words, body):
    """Takes a file, or gives the sections of the script that begins."""
    if words == "script":
        try:
            body.decode()
        except UnicodeDecodeError:
            raise CaseFault("a script is no UTF-8") from None
        return {words: body}
    name = words.removeprefix("file ")
    if name == words or case.scripts:
        raise out_of_place(words)
    if name in case.files:
        raise CaseFault(f"file '{name}' is there twice")
    if "/" in name or name in ("", ".", "..", SCRIPT, CERTIFICATES):
        raise CaseFault(f"file '{name}' can't lie beside the script")
    case.files[name] = body
    return None


def may_follow(begun, words):
    """Whether a section may stand behind those of a script that has begun."""
    if words == "messages":
        return "output" in begun and words not in begun
    return words in ("certificates", "output") and words not in begun and "output" not in begun


def out_of_place(words):
    order = (
        "files come first, then each script with its certificates if they are to be checked, its output, its messages if there are any,"
        " and its status"
    )
    return CaseFault(f"'{words}' is out of place: {order}")


# ---- running


def differences(program, case, folder):
    """Runs the scripts of a case in a folder, and gives each difference: what differs, what is expected and what was found."""
    for name, body in case.files.items():
        (folder / name).write_bytes(body)
    earlier = NOTHING
    for number, script in enumerate(case.scripts, 1):
        is_refused = TEXT_REFUSED.fullmatch(script.output)
        before = NOTHING if is_refused else earlier
        if script.certificates is not None:
            before = before._replace(printed=b"", said=b"", status=0)
        ran = run(program, folder, before.text + script.text, script.certificates)
        for what, expected, found in compared(script, before, ran):
            if expected != found:
                yield f"script {number}: {what}\n---- expected\n{shown(expected)}---- found\n{shown(found)}----"
        if not is_refused and script.certificates is None:
            earlier = ran


def run(program, folder, text, certificates):
    (folder / SCRIPT).write_bytes(text)
    words = ["sqlr", "run", SCRIPT]
    if certificates is not None:
        (folder / CERTIFICATES).write_bytes(certificates)
        words = ["sqlr", "check", SCRIPT, CERTIFICATES]
    ran = subprocess.run(words, executable=program, cwd=folder, stdin=subprocess.DEVNULL, capture_output=True)
    return Ran(text, ran.stdout, ran.stderr, ran.returncode)


def compared(script, before, ran):
    """What is compared of a script: what is expected, and what was found of it behind the scripts before."""
    lines = before.text.count(b"\n")
    said = LINE.sub(lambda place: b"%s%d" % (place[1], int(place[2]) - lines), behind(before.said, ran.said))
    if script.messages is None and not REFUSAL.search(said):
        said = b""
    yield "the output differs", script.output, behind(before.printed, ran.printed)
    yield "the messages differ", script.messages or b"", said
    yield "the status differs", b"%d\n" % max(script.status, before.status), b"%d\n" % ran.status


def behind(earlier, found):
    return found.removeprefix(earlier) if found.startswith(earlier) else b"(without what the earlier scripts give)\n" + found


def shown(found):
    return found.decode(errors="replace")


def faults(program, path):
    """What is wrong with the case of a file, as texts."""
    try:
        case = parse(path.read_bytes().decode())
    except (OSError, UnicodeDecodeError, CaseFault) as fault:
        return [str(fault)]
    with tempfile.TemporaryDirectory() as folder:
        return list(differences(program, case, pathlib.Path(folder)))


# ---- all cases


def names(folder, words):
    """The names of the cases that words choose. Each folder has cases and files of rows and nothing else: any other file is taken for a case."""
    paths = (path for group in folder.iterdir() if group.is_dir() for path in group.iterdir() if path.suffix != ROWS_ENDING)
    found = sorted(path.relative_to(folder).as_posix().removesuffix(ENDING) for path in paths)
    return [name for name in found if not words or name.startswith(tuple(words))]


def main():
    parser = argparse.ArgumentParser(description=__doc__, formatter_class=argparse.RawDescriptionHelpFormatter)
    parser.add_argument("program", type=pathlib.Path)
    parser.add_argument("--folder", type=pathlib.Path, default=CASES)
    parser.add_argument("--count", type=int)
    parser.add_argument("words", nargs="*", metavar="WORD")
    given = parser.parse_intermixed_args()
    program, chosen, failed = given.program.resolve(), names(given.folder, given.words), 0
    with concurrent.futures.ThreadPoolExecutor(os.cpu_count()) as pool:
        for name, found in zip(chosen, pool.map(lambda name: faults(program, given.folder / f"{name}{ENDING}"), chosen)):
            failed += bool(found)
            for fault in found:
                print(f"{name}: {fault}")
    if given.count not in (None, len(chosen)):
        print(f"{given.count} cases were to be run")
    print(f"{len(chosen)} cases, {failed} failed")
    sys.exit(1 if failed or not chosen or given.count not in (None, len(chosen)) else 0)


if __name__ == "__main__":
    main()
