#!/usr/bin/env python3
"""Makes queries, and compares what sqlr-plan shows of them with what EXPLAIN prints.

usage: compare_views.py SQLR SQLR_PLAN [--count N] [--seed N]

Of each made script: EXPLAIN's certificates pass the check; the steps of `tree` sum to EXPLAIN's target, and its last line is EXPLAIN's; `why` of EXPLAIN's own plan loses nothing, and its
plan by names reads as that plan; `sweep` at today's value and `indexes` with nothing changed give the target; the script of `statistics`
explains as the script itself. A script with a difference is printed; the status is 1 where there is one.
"""
import argparse
import json
import random
import subprocess
import sys
import tempfile


def made_script(chance):
    """A script of tables with statistics and indexes, and an EXPLAIN that joins them; and a statistic of it with its value."""
    count = chance.randint(1, 4)
    lines, swept = [], None
    for number in range(count):
        rows = chance.choice([0, 1, 10, 200, 5000, 1000000])
        pages = max(1, rows // chance.choice([5, 20, 100]))
        lines.append(f"CREATE TABLE T{number} (A INTEGER NOT NULL, B INTEGER, C NUMERIC(7,2), D CHAR(6));")
        lists = chance.sample(["A", "B", "C", "D", "A, B", "B, C", "D, A"], chance.randint(0, 3))
        lines += [f"CREATE {chance.choice(['', 'UNIQUE '])}INDEX ON T{number} ({it});" for it in lists]
        lines.append(f"SET STATISTICS T{number} ROWS {rows} PAGES {pages};")
        swept = (f"T{number} ROWS", rows)
        for it in lists:
            keys = chance.randint(0, max(rows, 1))
            bounds = " LOW -3 HIGH 99" if it[0] in "AB" and chance.random() < 0.5 else ""
            clustered = " CLUSTERED" if chance.random() < 0.4 else ""
            lines.append(f"SET STATISTICS T{number} ({it}) KEYS {keys} PAGES {max(1, keys // 50)}{clustered}{bounds};")
    names = [f"X{number}" for number in range(count)]
    conditions = [f"{names[i]}.{chance.choice('AB')} = {names[chance.randrange(i)]}.{chance.choice('AB')}" for i in range(1, count)]
    conditions += chance.sample([f"{chance.choice(names)}.A > 5", f"{chance.choice(names)}.D = 'x'", f"{chance.choice(names)}.B BETWEEN 1 AND 9",
        f"{chance.choice(names)}.C IN (1, 2.5)", f"EXISTS (SELECT * FROM T0 Y WHERE Y.A = {names[0]}.B)"], chance.randint(0, 2))
    tables = ", ".join(f"T{number} {name}" for number, name in enumerate(names))
    where = f" WHERE {' AND '.join(conditions)}" if conditions else ""
    order = chance.choice(["", " ORDER BY 1", " ORDER BY 1 DESC"])
    lines.append(f"EXPLAIN SELECT {chance.choice(names)}.{chance.choice('AB')} FROM {tables}{where}{order};")
    return "\n".join(lines) + "\n", swept


def run(*words):
    ran = subprocess.run(words, capture_output=True, text=True)
    return ran.stdout


def explained(text):
    """The lines PLAN and the targets of an EXPLAIN's text."""
    lines = text.splitlines()
    return [it for it in lines if it.startswith("PLAN ")], [int(it.split()[1]) for it in lines if it.startswith("TARGET ")]


def parts(section, kind, key, default=None):
    return section.get(kind, {}).get(key, default)


def passes(sqlr, name, text):
    """Whether the certificates that a script's EXPLAIN printed, behind the lines of its other statements, pass the check."""
    lines = text.splitlines(keepends=True)
    behind = max((place for place, it in enumerate(lines, 1) if it == "OK\n"), default=0)
    with tempfile.NamedTemporaryFile("w", suffix=".certificates") as file:
        file.writelines(lines[behind:])
        file.flush()
        return subprocess.run([sqlr, "check", name, file.name], capture_output=True).returncode == 0


def faults(sqlr, viewer, script, swept):
    """What is not as it should be of a script."""
    with tempfile.NamedTemporaryFile("w", suffix=".sql") as file:
        file.write(script)
        file.flush()
        return list(faults_of(sqlr, viewer, file.name, swept))


def faults_of(sqlr, viewer, name, swept):
    text = run(sqlr, "run", name)
    plans, targets = explained(text)
    tree = json.loads(run(viewer, "tree", name, "--json") or '{"sections": []}')
    if len(tree["sections"]) != len(targets):
        yield "tree has other blocks"
        return
    for section, plan, target in zip(tree["sections"], plans, targets):
        rows = parts(section, "tables", "plan", [])
        if sum(row["own"] for row in rows) != target or rows[0]["cost"] != target:
            yield f"the steps of block {section['number']} don't sum to {target}"
        if parts(section, "lines", "spelling") != plan:
            yield f"tree ends with {parts(section, 'lines', 'spelling')} for {plan}"
        if "proved to pass" not in parts(section, "lines", "certificate", ""):
            yield "tree says nothing of a certificate"
    if not passes(sqlr, name, text):
        yield "EXPLAIN's certificates don't pass"
    yield from why_faults(viewer, name, plans[0][5:])
    sweep = json.loads(run(viewer, "sweep", name, swept[0], str(swept[1]), "--json") or '{"sections": []}')
    for section, target in zip(sweep["sections"], targets):
        if [row["least"] for row in parts(section, "tables", "sweep", [])] != [target]:
            yield f"sweep of {swept[0]} at {swept[1]} isn't {target}"
    indexes = json.loads(run(viewer, "indexes", name, "--json") or '{"sections": []}')
    if [parts(section, "figures", "target") for section in indexes["sections"]] != targets:
        yield "indexes has another target"
    with tempfile.NamedTemporaryFile("w", suffix=".sql") as file:
        statements = run(viewer, "statistics", name)
        place = statements.index("\nSELECT") + 1
        file.write(statements[:place] + "EXPLAIN " + statements[place:])
        file.flush()
        if explained(run(sqlr, "run", file.name)) != (plans, targets):
            yield "the script of statistics explains otherwise"


def why_faults(viewer, name, plan):
    """What isn't as it should be of EXPLAIN's own plan, spelled and by names."""
    for _ in range(2):
        why = json.loads(run(viewer, "why", name, plan, "--json") or '{"sections": [{}]}')
        lost = parts(why["sections"][0], "lines", "lost", "nothing is told")
        if not lost.startswith("Nothing is lost"):
            yield f"why {plan}: {lost}"
        named = parts(why["sections"][0], "lines", "plan", "")
        if _ and named != plan:
            yield f"{plan} is read as {named}"
        plan = named


def main():
    asked = argparse.ArgumentParser()
    asked.add_argument("sqlr")
    asked.add_argument("viewer")
    asked.add_argument("--count", type=int, default=500)
    asked.add_argument("--seed", type=int, default=1)
    words = asked.parse_args()
    chance, wrong = random.Random(words.seed), 0
    for number in range(words.count):
        script, swept = made_script(chance)
        told = faults(words.sqlr, words.viewer, script, swept)
        if told:
            wrong += 1
            print(f"query {number}:", "; ".join(told), script, sep="\n")
    print(f"{words.count} queries, {wrong} differ")
    sys.exit(1 if wrong else 0)


if __name__ == "__main__":
    main()
