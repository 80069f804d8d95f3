#!/usr/bin/env python3
"""Says whether a release is what was built of the same sources.

usage: release.py PROGRAM

The status is 1 where the release of PROGRAM, which was built here, is not of these sources. Where its bytes are not those of PROGRAM, the
release itself is called, release/sqlr as people call it (tools/program_statuses.py) and release/sqlr-plan as its crate's run is, and the
status is that of these calls.
"""
import pathlib
import subprocess
import sys

ROOT = pathlib.Path(__file__).resolve().parent.parent
# What the program of a crate is called.
NAMES = {"sqlr_cli": "sqlr", "sqlr_plan": "sqlr-plan"}


def main():
    program = pathlib.Path(sys.argv[1])
    crate, name = program.name, NAMES[program.name]
    release = ROOT / "release" / name
    command = f". tools/sources.sh; sources {crate}"
    sum_now = subprocess.run(["bash", "-c", command], cwd=ROOT, capture_output=True, text=True, check=True).stdout.strip()
    kept = ROOT / f"release/{name}.sources"
    if not kept.is_file() or kept.read_text().strip() != sum_now:
        sys.exit(f"release/{name} is not of these sources: run ./build")
    if release.read_bytes() == program.read_bytes():
        print(f"release/{name} is byte for byte what was built of these sources")
        return
    print(f"release/{name} differs from {program}, which was built of the same sources; so it is tried itself")
    if name == "sqlr":
        sys.exit(subprocess.run([sys.executable, "tools/program_statuses.py", str(release)], cwd=ROOT).returncode)
    sys.exit(run_differs(release, ROOT / "crates" / crate))


def run_differs(release, crate):
    """Whether a release doesn't write what is stored with its crate."""
    words = (crate / "args").read_text().splitlines()
    ran = subprocess.run([release, *words], cwd=crate / "data", stdin=subprocess.DEVNULL, capture_output=True)
    return ran.stdout != (crate / "stdout").read_bytes() or ran.returncode != 0


if __name__ == "__main__":
    main()
