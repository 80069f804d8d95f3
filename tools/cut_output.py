#!/usr/bin/env python3
"""Runs the program with an output that takes some bytes and no more, for each number of bytes.

usage: cut_output.py PROGRAM

The scripts are those of memory, run and, where the last statement is an EXPLAIN, checked. Each run writes into a file that may not
grow beyond a number of bytes: 0, then 1, and on to one less than all. It has to leave the first bytes of what the script prints, as many as
there is room for, and to end with status 2 and words on standard error. A line tells of each script; the status is 1 where a run is not so.
"""
import concurrent.futures
import os
import pathlib
import shutil
import subprocess
import sys
import tempfile

from refuse_memory import SCRIPTS, statements_of

COMPLAINT = b"sqlr: standard output: File too large\n"


class Room:
    """A folder with the scripts' files, in which the program runs."""

    def __init__(self, program, folder):
        self.program, self.folder = program, pathlib.Path(folder)
        shutil.copytree(SCRIPTS, folder, dirs_exist_ok=True)

    def printed(self, words):
        return subprocess.run([self.program, *words], cwd=self.folder, capture_output=True).stdout

    def cut(self, words, size):
        """The status, what the output took, and standard error, where the output takes so many bytes."""
        taken = self.folder / f"taken_{size}"
        command = ["prlimit", f"--fsize={size}", self.program, *words]
        with open(taken, "wb") as output:
            # The signal of a file that is too large stays ignored, as it is here: so the write fails.
            run = subprocess.run(command, cwd=self.folder, stdout=output, stderr=subprocess.PIPE, restore_signals=False)
        bytes_taken = taken.read_bytes()
        taken.unlink()
        return run.returncode, bytes_taken, run.stderr


def commands_of(room, script):
    """The commands of a script."""
    yield ["run", script.name]
    lines = statements_of(script)
    if lines[-1].startswith("EXPLAIN"):
        (room.folder / "front.sql").write_text("".join(lines[:-1]))
        certificates = room.folder / "certificates"
        certificates.write_bytes(room.printed(["run", script.name])[len(room.printed(["run", "front.sql"])) :])
        yield ["check", script.name, certificates.name]


def main():
    (program,) = sys.argv[1:]
    failed = cuts = 0
    with tempfile.TemporaryDirectory() as folder, concurrent.futures.ThreadPoolExecutor(os.cpu_count()) as pool:
        room = Room(str(pathlib.Path(program).resolve()), folder)
        for script in sorted(SCRIPTS.glob("*.sql")):
            for words in commands_of(room, script):
                whole = room.printed(words)
                ends = pool.map(lambda size: room.cut(words, size), range(len(whole)))
                wrong = [
                    size
                    for size, (status, taken, errors) in enumerate(ends)
                    if (status, taken) != (2, whole[:size]) or not errors.endswith(COMPLAINT)
                ]
                failed += len(wrong)
                cuts += len(whole)
                print(f"{words[0]} {script.name}: {len(whole)} bytes" + (f", {len(wrong)} wrong, the first {wrong[:9]}" if wrong else ""))
    print(f"{cuts} outputs cut, {failed} answered wrongly")
    sys.exit(1 if failed else 0)


if __name__ == "__main__":
    main()
