#!/usr/bin/env python3
"""Tells how the works of all.py grow: ours at 1, 2, 4 and 8 times the rows, and the memory that each takes beside its tables.

usage: growth.py PROGRAM [WORKLOAD ..]

Milliseconds are those of one SELECT, wall time by --timing, the least of two, so nothing else should run beside. The last ratio is the time a row at
the greatest size by that at the first. Memory is the peak of a run in bytes a row of the greatest table of the SELECT, less the peak of a run that
loads the same tables and asks nothing; of LOAD it is the peak by the bytes of the file. Tables of a SELECT are loaded from files of some megabytes
each, since LOAD holds its file, which would hide what the SELECT takes.
"""
import json
import os
import pathlib
import re
import subprocess
import sys
import tempfile

SIZES = (1, 2, 4, 8)
PART = 2_000_000


def ran(program, folder, script):
    """The milliseconds of the last statements of a script, and the peak of the run in bytes."""
    (folder / "growth.sql").write_text(script)
    with open(os.devnull, "wb") as nowhere, open(folder / "said.txt", "w+b") as said:
        run = subprocess.Popen([program, "run", "--timing", "growth.sql"], cwd=folder, stdout=nowhere, stderr=said)
        _, status, used = os.wait4(run.pid, 0)
        said.seek(0)
        times = [float(it) * 1000 for it in re.findall(rb"([\d.]+) s$", said.read(), re.MULTILINE)]
    if status:
        sys.exit(f"growth.py: {script[-200:]} ended with {status}")
    return times, used.ru_maxrss * 1024


def parted(folder, name):
    """Writes the records of a table into files of some megabytes each, and gives the statements that load them. What this program holds itself would
    count as the peak of a run that it starts, so it holds one such file at a time."""
    parts = []
    with open(folder / f"{name}.csv", "rb") as whole:
        while records := whole.read(PART) + whole.readline():
            part = f"{name}_{len(parts)}.csv"
            (folder / part).write_bytes(records)
            parts.append(f"LOAD {name} FROM '{part}';\n")
    return "".join(parts)


def measured(program, names):
    """Of each work its milliseconds, and its memory a row beside its tables: at the size that ALL_SCALE says."""
    import all as works

    told = {}
    with tempfile.TemporaryDirectory() as name:
        folder = pathlib.Path(name)
        works.write_records(folder)
        parts = {name: parted(folder, name) for name in works.TABLES}
        loads = {}
        for work in works.WORKLOADS:
            if names and work.name not in names:
                continue
            tables = works.used(work)
            load = works.created(tables) + "".join(parts[it] for it in tables) if work.query else works.load_script(tables, False)
            if load not in loads:
                loads[load] = ran(program, folder, load)
            times, peak = loads[load]
            if not work.query:
                told[work.name] = max(times), peak / (folder / "FACT.csv").stat().st_size
                continue
            rows = max({"FACT": works.FACTS, "SCAN": works.SCANNED, "DIM": works.DIMENSIONS}.get(it, 0) for it in tables) or 20_000
            asked, top = ran(program, folder, load + f"{work.query};\n" * 2)
            told[work.name] = min(asked[-2:]), (top - peak) / rows
    return told


def main():
    program, names = str(pathlib.Path(sys.argv[1]).resolve()), sys.argv[2:]
    if "GROWTH_SIZE" in os.environ:
        print(json.dumps(measured(program, names)))
        return
    told = []
    for size in SIZES:
        env = {**os.environ, "ALL_SCALE": str(size), "GROWTH_SIZE": str(size)}
        said = subprocess.run([sys.executable, __file__, program, *names], env=env, stdout=subprocess.PIPE, check=True).stdout
        told.append(json.loads(said))
        print(f"growth.py: {size} times the rows measured", file=sys.stderr, flush=True)
    print("| work | " + " | ".join(f"{size} times, ms" for size in SIZES) + " | time a row | memory a row |")
    print("| --- |" + " --- |" * (len(SIZES) + 2))
    for name, (first, _) in told[0].items():
        times = [it[name][0] for it in told]
        print(f"| {name} | " + " | ".join(f"{it:.0f}" for it in times) + f" | {times[-1] / SIZES[-1] / max(first, 0.5):.2f} | {told[-1][name][1]:.1f} |")


if __name__ == "__main__":
    main()
