#!/usr/bin/env python3
"""Refuses each allocation of the program in turn, and looks at what such a run prints.

usage: refuse_memory.py PROGRAM [--words | --sessions | --steps | --views] [SCRIPT ..]

The scripts are those of memory, or the named ones: a statement a line, and files beside them that they load. Each is run under a
library that refuses one call of malloc or realloc: the first, then the second, and on to the last. Where its last statement is an EXPLAIN,
what that printed is a file of certificates, and `check` of it is run so as well. Such a run has to print what the script prints, with its
status; or it ends with status 2 and `out of memory`, and what it printed is what whole statements print, of a check nothing. Words for people
may be fewer where memory was wanting for them: --words prints the lines that no run with ample memory has, to be read. A line tells of each
script and command; the status is 1 where a run is not so. A C compiler is needed.

With --sessions PROGRAM is crates/tests_engine, which runs the statements of a script one by one in one session, and a second time where memory was
wanting for one. Behind what it reads first, each refused allocation has to leave all that is printed as it is.

With --steps PROGRAM is crates/tests_engine too, which runs its own script of steps, and looks at what the run has left: a refused allocation has to
leave the work of whole statements.

With --views PROGRAM is sqlr-plan, and its views of examples/join.sql are asked so: each prints what it prints, or nothing.
"""
import collections
import concurrent.futures
import os
import pathlib
import shutil
import subprocess
import sys
import tempfile
from dataclasses import dataclass

SCRIPTS = pathlib.Path(__file__).resolve().parent.parent / "memory"
EXAMPLES = SCRIPTS.parent / "examples"
# What sqlr-plan is asked of the join.
VIEWS = [
    ["tree"], ["tree", "join.certificates"], ["why", "A loop B"], ["why", "MERGE(ACCESS(SEG 1),1,SEG 2)"], ["sweep", "B ROWS", "10", "1000"], ["indexes"], ["diff", "join.sql"],
    ["search", "--all"], ["statistics"], ["page"], ["tree", "--json"],
]
# What crates/tests_engine tells of its steps where an allocation is refused, if all is well.
STEPS = [b"refused before the run\n", b"refused in the run\n", b"refused behind the run\n", b"nothing is refused\n"]
LIBRARY = r"""
#include <errno.h>
#include <stddef.h>
#include <stdio.h>
#include <stdlib.h>

extern void *__libc_malloc(size_t), *__libc_realloc(void *, size_t);
static long refused, calls;

__attribute__((constructor)) static void begin(void) {
    refused = atol(getenv("REFUSED"));
    calls = 0;
}

/* Where none is refused, standard error gets how many there were. */
__attribute__((destructor)) static void end(void) {
    if (refused == 0) dprintf(2, "%ld\n", calls);
}

static int is_refused(void) {
    if (++calls != refused) return 0;
    errno = ENOMEM;
    return 1;
}

void *malloc(size_t size) { return is_refused() ? NULL : __libc_malloc(size); }
void *realloc(void *old, size_t size) { return is_refused() ? NULL : __libc_realloc(old, size); }
"""


@dataclass(frozen=True)
class Ran:
    """How a run ended and what it printed."""

    status: int
    output: bytes
    errors: bytes

    def end(self, whole, beginnings):
        """`whole` where it answers as the run in which nothing is refused, `cut` where it broke off as it may, or `wrong`."""
        if (self.status, self.output) == (whole.status, whole.output):
            return "whole"
        is_cut = self.status == 2 and self.output in beginnings and self.errors.endswith(b"out of memory\n")
        return "cut" if is_cut else "wrong"


class Room:
    """A folder with the scripts' files, in which the program runs under the library."""

    def __init__(self, program, folder):
        self.program, self.folder = program, pathlib.Path(folder)
        shutil.copytree(SCRIPTS, folder, dirs_exist_ok=True)
        (self.folder / "refuse.c").write_text(LIBRARY)
        subprocess.run(["cc", "-shared", "-fPIC", "-o", "refuse.so", "refuse.c"], cwd=folder, check=True)

    def written(self, name, content):
        (self.folder / name).write_bytes(content)
        return name

    def ran(self, words, refused):
        """What a command of the program does with the allocation of a number refused; of number 0 there is none."""
        environment = {**os.environ, "LD_PRELOAD": str(self.folder / "refuse.so"), "REFUSED": str(refused)}
        run = subprocess.run([self.program, *words], cwd=self.folder, env=environment, capture_output=True)
        return Ran(run.returncode, run.stdout, run.stderr)

    def counted(self, words):
        """What a command does where nothing is refused, and how many allocations it takes."""
        ran = self.ran(words, 0)
        *lines, count = ran.errors.splitlines(keepends=True)
        return Ran(ran.status, ran.output, b"".join(lines)), int(count)

    def judged(self, words, beginnings, pool):
        """How often the runs of a command end in each way, the numbers of those that are wrong, and the lines that they alone have."""
        whole, allocations = self.counted(words)
        numbers = range(1, allocations + 1)
        runs = list(pool.map(lambda number: self.ran(words, number), numbers))
        ends = [it.end(whole, beginnings) for it in runs]
        wrong = [number for number, end in zip(numbers, ends) if end == "wrong"]
        lines = {line for it in runs for line in it.errors.splitlines() if not line.endswith(b"out of memory")}
        own = lines - set(whole.errors.splitlines())
        return {end: ends.count(end) for end in ("whole", "cut")}, wrong, own


    def resumed(self, script, pool):
        """How often a session that goes on behind a refusal prints what it prints without one, how often it isn't begun, and the numbers of the others."""
        text = script.read_text()
        files = sorted(it.name for it in self.folder.glob("*.csv"))
        whole, allocations = self.counted([self.written("script.sql", text.encode()), *files])
        if whole.status or not whole.output:
            raise RuntimeError(f"{script.name} doesn't end well where nothing is refused")
        # a comment of as many bytes is read as the script is, and nothing is run
        _, read = self.counted([self.written("comment.sql", b"-" * len(text.encode())), *files])
        numbers = range(1, allocations + 1)
        runs = list(pool.map(lambda number: self.ran(["script.sql", *files], number), numbers))
        unbegun = [number for number, it in zip(numbers, runs) if number <= read and it.status != 0 and not it.output]
        wrong = [number for number, it in zip(numbers, runs) if number not in unbegun and (it.status, it.output) != (whole.status, whole.output)]
        return len(numbers) - len(unbegun) - len(wrong), len(unbegun), wrong


def statements_of(script):
    return [line for line in script.read_text().splitlines(keepends=True) if not line.startswith("--")]


def commands_of(room, script):
    """The commands of a script, each with what it may have printed where it breaks off."""
    lines = statements_of(script)
    beginnings = []
    for count in range(len(lines) + 1):
        name = room.written(f"{script.stem}_{count}.sql", "".join(lines[:count]).encode())
        beginnings.append(room.counted(["run", name])[0].output)
    yield ["run", name], beginnings
    if lines[-1].startswith("EXPLAIN"):
        certificates = room.written(f"{script.stem}.certificates", beginnings[-1][len(beginnings[-2]) :])
        yield ["check", name, certificates], [b""]


def look_at_programs(room, scripts, pool, is_telling):
    """Runs and checks the scripts, and gives how many allocations were refused, and how many were answered wrongly."""
    failed = refused = 0
    for script in scripts:
        for words, beginnings in commands_of(room, script):
            ends, wrong, own = room.judged(words, beginnings, pool)
            failed += len(wrong)
            refused += sum(ends.values()) + len(wrong)
            print(f"{words[0]} {script.name}: {ends['cut']} cut, {ends['whole']} done without{told_wrong(wrong)}")
            for line in sorted(own) if is_telling else []:
                print(f"    {line.decode()}")
    return refused, failed


def look_at_sessions(room, scripts, pool):
    """Runs the scripts in sessions that go on, and gives the same."""
    failed = refused = 0
    for script in scripts:
        same, unbegun, wrong = room.resumed(script, pool)
        failed += len(wrong)
        refused += same + unbegun + len(wrong)
        print(f"session of {script.name}: {same} gone on behind, {unbegun} not begun{told_wrong(wrong)}")
    return refused, failed


def look_at_views(room, pool):
    """Asks the views of the join, and gives the same."""
    for name in ("join.sql", "join.certificates"):
        room.written(name, (EXAMPLES / name).read_bytes())
    failed = refused = 0
    for view, *more in VIEWS:
        ends, wrong, _ = room.judged([view, "join.sql", *more], [b""], pool)
        failed += len(wrong)
        refused += sum(ends.values()) + len(wrong)
        print(f"{view} {' '.join(more)}: {ends['cut']} cut, {ends['whole']} done without{told_wrong(wrong)}")
    return refused, failed


def look_at_steps(room, pool):
    """Has the steps run, and gives the same."""
    whole, allocations = room.counted(["steps"])
    if whole.output != STEPS[-1]:
        raise RuntimeError("the steps aren't as they have to be where nothing is refused")
    numbers = range(1, allocations + 1)
    runs = list(pool.map(lambda number: room.ran(["steps"], number), numbers))
    # the program reads its words before it begins
    unbegun = next(place for place, it in enumerate(runs) if it.output)
    wrong = [number for number, it in zip(numbers, runs) if number > unbegun and (it.status or it.output not in STEPS)]
    told = collections.Counter(it.output for it in runs)
    ends = ", ".join(f"{told[it]} {it.decode().strip()}" for it in STEPS)
    print(f"steps: {ends}, {unbegun} not begun{told_wrong(wrong)}")
    return allocations, len(wrong)


def told_wrong(wrong):
    return f", {len(wrong)} wrong, the first {wrong[:9]}" if wrong else ""


def main():
    program, *named = [it for it in sys.argv[1:] if it not in ("--words", "--sessions", "--steps", "--views")]
    scripts = sorted(map(pathlib.Path, named)) or sorted(SCRIPTS.glob("*.sql"))
    with tempfile.TemporaryDirectory() as folder, concurrent.futures.ThreadPoolExecutor(os.cpu_count()) as pool:
        room = Room(str(pathlib.Path(program).resolve()), folder)
        if "--sessions" in sys.argv:
            refused, failed = look_at_sessions(room, scripts, pool)
        elif "--steps" in sys.argv:
            refused, failed = look_at_steps(room, pool)
        elif "--views" in sys.argv:
            refused, failed = look_at_views(room, pool)
        else:
            refused, failed = look_at_programs(room, scripts, pool, "--words" in sys.argv)
    print(f"{refused} allocations refused in turn, {failed} answered wrongly")
    sys.exit(1 if failed else 0)


if __name__ == "__main__":
    main()
