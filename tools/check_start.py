#!/usr/bin/env python3
"""Looks how ./sqlr starts, in a small repository of the same form.

usage: check_start.py

A link to it in another folder starts the release. Sums are made at the first start, and again only where a source, the program or its place has
changed; where the release isn't of the sources any more, the program is built. The version comes with the sum of the sources. The status is 1
where it isn't so.
"""
import os
import pathlib
import shutil
import subprocess
import sys
import tempfile

ROOT = pathlib.Path(__file__).resolve().parent.parent
# Stands for a command: notes that it was called, and does what it does.
NOTING = '#!/bin/sh\necho {name} >> "{notes}"\nexec {program} "$@"\n'


def written(path, text, mode=0o644):
    path.parent.mkdir(parents=True, exist_ok=True)
    path.write_text(text)
    path.chmod(mode)
    return path


class Small:
    """A repository with one crate, whose program says that it ran."""

    def __init__(self, room):
        self.room, self.root, self.notes = room, room / "small", room / "notes"
        for name in ("sqlr", "tools/program.sh", "tools/sources.sh"):
            (self.root / name).parent.mkdir(parents=True, exist_ok=True)
            shutil.copy2(ROOT / name, self.root / name)
        self.source = written(self.root / "crates/sqlr_cli/src/main.rt", "one\n")
        for part in ("specs", "proofs"):
            written(self.root / f"crates/sqlr_cli/{part}/Lib.antt", "\n")
        written(self.root / "crates.txt", "sqlr_cli:\n")
        written(self.root / "release/sqlr", '#!/bin/sh\necho "ran $*"\n', 0o755)
        written(room / "bin/sha256sum", NOTING.format(name="sums", notes=self.notes, program=shutil.which("sha256sum")), 0o755)
        written(room / "bin/python3", NOTING.format(name="build", notes=self.notes, program="false"), 0o755)
        self.room.joinpath("elsewhere").mkdir()
        self.room.joinpath("elsewhere/sqlr").symlink_to(self.root / "sqlr")
        written(self.root / "release/sqlr.sources", self.run("bash", "-c", ". tools/sources.sh; sources sqlr_cli").stdout)

    def run(self, *words):
        paths = f"{self.room / 'bin'}:{os.environ['PATH']}"
        env = {**os.environ, "PATH": paths, "XDG_CACHE_HOME": str(self.room / "cache")}
        return subprocess.run(words, cwd=self.root, env=env, capture_output=True, text=True)

    def start(self):
        """What a start through the link printed, its status, and which commands it called."""
        self.notes.write_text("")
        ran = self.run(str(self.room / "elsewhere/sqlr"), "run", "x")
        return ran.stdout, ran.returncode, sorted(set(self.notes.read_text().split()))


def main():
    faults = []

    def expect(what, found, wanted):
        if found != wanted:
            faults.append(f"{what}: {found}, and not {wanted}")

    with tempfile.TemporaryDirectory() as room:
        small = Small(pathlib.Path(room))
        well = ("ran run x\n", 0)
        expect("the first start", small.start(), (*well, ["sums"]))
        expect("the second start", small.start(), (*well, []))
        small.source.write_text("two\n")
        expect("a start behind a change", small.start(), ("", 2, ["build", "sums"]))
        small.source.write_text("one\n")
        expect("a start behind a change back", small.start(), (*well, ["sums"]))
        expect("a start behind that", small.start(), (*well, []))
        told = small.run(str(small.room / "elsewhere/sqlr"), "--version")
        digits = (small.root / "release/sqlr.sources").read_text()[:12]
        expect("the version", (told.stdout, told.returncode), (f"ran --version\nof the sources {digits}\n", 0))
        (small.root / "release/sqlr").write_text("#!/bin/sh\necho other\n")
        expect("a start of another release", small.start(), ("other\n", 0, ["sums"]))
    print(*faults, f"starts: {len(faults)} of 7 not as they should be", sep="\n")
    sys.exit(1 if faults else 0)


if __name__ == "__main__":
    main()
