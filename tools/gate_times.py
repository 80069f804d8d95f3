#!/usr/bin/env python3
"""Makes docs/TIMES.md, what each crate of the gate takes, from what ./test printed.

usage: gate_times.py PROCESSORS LOG..

A LOG holds what ./test printed. One is enough where nothing was kept. Where a run was cut off and another went on over what it had kept,
both are given, and a crate's seconds are the most that it took in one of them. Lines are counted in the tree as it stands.
"""
import datetime
import pathlib
import re
import sys

ROOT = pathlib.Path(__file__).resolve().parent.parent
PAGE = ROOT / "docs/TIMES.md"


def lines(crate, part, suffix):
    return sum(len(it.read_text().splitlines()) for it in (ROOT / "crates" / crate / part).rglob(f"*{suffix}"))


def functions(crate):
    return sum(len(re.findall(r"^\s*(?:pub(?:\([a-z]+\))? )?(?:const )?fn \w+", it.read_text(), re.M)) for it in (ROOT / "crates" / crate / "src").rglob("*.rt"))


def main():
    processors, logs = sys.argv[1], [pathlib.Path(it).read_text(errors="replace") for it in sys.argv[2:]]
    took, wholes = {}, []
    for log in logs:
        for name, seconds, edits in re.findall(r"^took: (\w+) (\d+) processor seconds(?:, (\d+) of them for edits)?$", log, re.M):
            took[name] = max((int(seconds), edits or "-"), took.get(name, (0, "-")))
        wholes += re.findall(r"^took: the gate (\d+) minutes, (\d+) processor minutes$", log, re.M)
    runs = "; ".join(f"{minutes} minutes, {of_processors} processor minutes" for minutes, of_processors in wholes)
    how = "from nothing" if len(logs) == 1 else f"in {len(logs)} runs, each over what the one before had kept; a crate's seconds are the most of one run"
    text = [
        "# What the gate takes",
        "",
        f"`./test` on {datetime.date.today()}, on {processors} processors, {how}: {runs}.",
        "The seconds are those of processors for what a run did of a crate: proofs, edits, tests and builds. '-' is a crate that was kept. Wrong",
        "bodies are tried outside the gate ([WRONG_BODIES.md](WRONG_BODIES.md)), but for the edits that it keeps.",
        "`tools/gate_times.py` makes this page from what `./test` prints.",
        "",
        "| crate | seconds | of them for edits | functions | lines of src | specs | proofs | edits | wrong bodies |",
        "| --- | --- | --- | --- | --- | --- | --- | --- | --- |",
    ]
    layer = re.compile(r"^# \d+ (.*)$")
    for line in (ROOT / "crates.txt").read_text().splitlines():
        if layer.match(line):
            text.append(f"| **{layer.match(line)[1]}** | | | | | | | | |")
        elif ":" in line:
            name = line.split(":")[0].split()[0]
            edits, bodies = (len(list((ROOT / "crates" / name / folder).glob("*.edit"))) for folder in ("must-fail", "wrong"))
            sizes = [lines(name, part, suffix) for part, suffix in (("src", ".rt"), ("specs", ".antt"), ("proofs", ".antt"))]
            counts = [*took.get(name, ("-", "-")), functions(name), *sizes, edits or "", bodies or ""]
            text.append(f"| `{name}` | " + " | ".join(map(str, counts)) + " |")
    PAGE.write_text("\n".join(text) + "\n")
    print(f"{PAGE.relative_to(ROOT)}: {len(took)} crates")


if __name__ == "__main__":
    main()
