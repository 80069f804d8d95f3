#!/usr/bin/env python3
"""Compares where the program says that scripts have their syntax fault with where the grammar has it, written out plainly here.

    tools/fault_places.py PROGRAM [COUNT]

Makes COUNT scripts (5,000, unless said) by the grammar, always the same ones, and changes most of them: a token is left out, put in,
doubled or another, or the script ends early. The first token with which the tokens from the beginning on begin no script is found by
Earley's method, which knows nothing of how the program reads; where all tokens begin a script and are none, the fault is at the script's
end. A line counts the scripts; the status is 1 where the program tells another place, or a fault where there is none. No script opens 64
levels.
"""
import collections
import concurrent.futures
import os
import random
import re
import subprocess
import sys

GRAMMAR = """
script     = ; = statement ';' script
statement  = CREATE TABLE name '(' columns ')' ; = CREATE INDEX ON name '(' names ')' ; = CREATE UNIQUE INDEX ON name '(' names ')'
statement  = LOAD name FROM string ; = SET STATISTICS name ROWS count PAGES count
statement  = SET STATISTICS name '(' names ')' KEYS count PAGES count clustered range ; = select ; = EXPLAIN select
clustered  = ; = CLUSTERED
range      = ; = LOW bound HIGH bound
bound      = number ; = '+' number ; = '-' number
number     = count ; = decimal
names      = name ; = name ',' names
columns    = column ; = column ',' columns
column     = name type constraint
constraint = ; = NOT NULL ; = NOT NULL UNIQUE ; = NOT NULL PRIMARY KEY
type       = SMALLINT ; = INTEGER ; = INT ; = exact '(' count ')' ; = exact '(' count ',' count ')' ; = text ; = text '(' count ')'
exact      = NUMERIC ; = DECIMAL ; = DEC
text       = CHAR ; = CHARACTER
select     = block ; = block ORDER BY keys
keys       = key ; = key ',' keys
key        = name way ; = count way
way        = ; = ASC ; = DESC
block      = SELECT quantity list FROM sources where groups having
quantity   = ; = ALL ; = DISTINCT
list       = '*' ; = items
items      = item ; = item ',' items
item       = expr ; = expr AS name
sources    = source ; = source ',' sources
source     = name ; = name name
where      = ; = WHERE expr
groups     = ; = GROUP BY refs
refs       = ref ; = ref ',' refs
ref        = name ; = name '.' name
having     = ; = HAVING expr
expr       = conj ; = conj OR expr
conj       = neg ; = neg AND conj
neg        = NOT neg ; = test
test       = sum tail
tail       = ; = op sum ; = op ALL '(' block ')' ; = op ANY '(' block ')' ; = op SOME '(' block ')' ; = IS NULL ; = IS NOT NULL
tail       = not BETWEEN sum AND sum ; = not LIKE string ; = not IN '(' block ')' ; = not IN '(' members ')'
not        = ; = NOT
members    = member ; = member ',' members
member     = sum ; = NULL
op         = '=' ; = '<>' ; = '<' ; = '>' ; = '<=' ; = '>='
sum        = product ; = product '+' sum ; = product '-' sum
product    = sign ; = sign '*' product ; = sign '/' product
sign       = '+' sign ; = '-' sign ; = primary
primary    = number ; = string ; = ref ; = function ; = EXISTS '(' block ')' ; = '(' block ')' ; = '(' expr ')'
function   = COUNT '(' '*' ')' ; = setfunction '(' quantity expr ')'
setfunction = COUNT ; = SUM ; = AVG ; = MIN ; = MAX
"""
WORDS = {"name": ["A", "B1", "T", "TABLE_2"], "string": ["'x'", "''", "'a''b'"], "count": ["1", "20", "0"], "decimal": ["1.5", ".5", "3."]}
SPACES = [" ", " ", " ", "\n", "\t", "  ", " -- note\n"]
MOST_LEVELS = 64
FAULT = re.compile(rb"error (E0[56]) 42000 at (\d+)\n")


def productions():
    """Each rule's right sides, a terminal being a text in quotes, a reserved word or a class of WORDS."""
    sides = collections.defaultdict(list)
    for line in GRAMMAR.strip().splitlines():
        name, _, rest = line.partition("=")
        for side in rest.split(" ; ="):
            sides[name.strip()].append(tuple(side.replace("';'", "semicolon").strip("; ").replace("semicolon", "';'").split()))
    return dict(sides)


RULES = productions()
TERMINALS = sorted({part for sides in RULES.values() for side in sides for part in side if part not in RULES})


# ---- reading


def fault_of(kinds):
    """The place of the first token with which no script begins, the number of tokens where all begin one and are none, or None."""
    sets = [closed({("script", side, 0, 0) for side in RULES["script"]}, 0, [])]
    for place, kind in enumerate(kinds):
        moved = {(rule, side, dot + 1, begun) for rule, side, dot, begun in sets[place] if side[dot : dot + 1] == (kind,)}
        if not moved:
            return place
        sets.append(closed(moved, place + 1, sets))
    ended = any(rule == "script" and dot == len(side) and begun == 0 for rule, side, dot, begun in sets[-1])
    return None if ended else len(kinds)


def closed(items, place, sets):
    """A set of items with all that they predict and complete."""
    found, work, empty = set(items), list(items), set()
    while work:
        rule, side, dot, begun = work.pop()
        if dot == len(side):
            empty |= {rule} if begun == place else set()
            earlier = found if begun == place else sets[begun]
            new = [(r, s, d + 1, b) for r, s, d, b in earlier if s[d : d + 1] == (rule,)]
        elif side[dot] in RULES:
            new = [(side[dot], s, 0, place) for s in RULES[side[dot]]]
            new += [(rule, side, dot + 1, begun)] if side[dot] in empty else []
        else:
            new = []
        for item in new:
            if item not in found:
                found.add(item)
                work.append(item)
    return found


# ---- making


def shortest():
    """How many tokens each symbol takes at least."""
    least = {terminal: 1 for terminal in TERMINALS}
    while len(least) < len(TERMINALS) + len(RULES):
        for rule, sides in RULES.items():
            known = [sum(least[part] for part in side) for side in sides if all(part in least for part in side)]
            if known:
                least[rule] = min(known)
    return least


LEAST = shortest()


def made(chance, symbol, room):
    """Terminals of a symbol, of about so many tokens at most."""
    if symbol not in RULES:
        return [symbol]
    sides = RULES[symbol]
    fitting = [side for side in sides if sum(LEAST[part] for part in side) <= room] or [min(sides, key=lambda side: sum(LEAST[p] for p in side))]
    side, kinds = chance.choice(fitting), []
    for place, part in enumerate(side):
        kinds += made(chance, part, room - len(kinds) - sum(LEAST[later] for later in side[place + 1 :]))
    return kinds


def changed(chance, kinds):
    """The same tokens, or with a change at one or two places."""
    kinds = list(kinds)
    for _ in range(chance.choice([0, 1, 1, 1, 2])):
        place = chance.randrange(len(kinds) + 1)
        way = chance.randrange(5)
        if way == 0:
            kinds[place : place + 1] = []
        elif way == 1:
            kinds[place:place] = [chance.choice(TERMINALS)]
        elif way == 2:
            kinds[place : place + 1] = [chance.choice(TERMINALS)]
        elif way == 3:
            kinds[place:place] = kinds[place : place + 1]
        else:
            kinds = kinds[:place]
    return kinds


def written(chance, kinds):
    """A script of these tokens, and where each begins in it."""
    text, places = "", []
    for kind in kinds:
        text += chance.choice(SPACES)
        places.append(len(text))
        text += chance.choice(WORDS[kind]) if kind in WORDS else kind.strip("'")
    return text + chance.choice(["", " ", "\n"]), places


def judged(program, number):
    """What the program tells of a made script, and what it has to."""
    chance = random.Random(number)
    kinds = changed(chance, [kind for _ in range(chance.choice([1, 1, 2])) for kind in [*made(chance, "statement", chance.choice([15, 30, 60])), "';'"]])
    text, places = written(chance, kinds)
    fault = fault_of(kinds)
    wanted = None if fault is None else (b"E05", places[fault] if fault < len(kinds) else len(text))
    run = subprocess.run([program, "run", "-"], input=text.encode(), stdout=subprocess.PIPE, stderr=subprocess.DEVNULL)
    match = FAULT.fullmatch(run.stdout)
    told = (match[1], int(match[2])) if match else None
    deep = sum(kind in ("'('", "'+'", "'-'", "NOT") for kind in kinds) >= MOST_LEVELS
    return text, wanted, told, deep


def main():
    program, count = sys.argv[1], int(sys.argv[2]) if len(sys.argv) > 2 else 5000
    with concurrent.futures.ThreadPoolExecutor(os.cpu_count()) as pool:
        judgements = list(pool.map(lambda number: judged(program, number), range(count)))
    shallow = [judgement for judgement in judgements if not judgement[3]]
    wrong = [judgement for judgement in shallow if judgement[1] != judgement[2]]
    for text, wanted, told, _ in wrong[:10]:
        print(f"{text!r}: told {told}, wanted {wanted}")
    faulty = sum(wanted is not None for _, wanted, _, _ in shallow)
    print(f"{len(shallow)} scripts, {faulty} with a fault, {len(wrong)} told wrongly")
    sys.exit(1 if wrong else 0)


if __name__ == "__main__":
    main()
