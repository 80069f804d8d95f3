#!/usr/bin/env python3
"""Changes the theory of plans, one definition at a time, in a copy of crates/definitions, and checks that its laws and worked examples
then no longer all prove. A law over definitions has no code that an edit could make wrong, so the definitions themselves are changed; what
each change makes false stands in docs/SEARCH.md. That a proof fails is not yet that its law is false: the list there says which are refuted.

Usage: tools/changed_definitions.py [NUMBER ..]. It takes some half a minute a change and stands outside the gate. The status is 1 where a
change is still proved, or where its text doesn't stand in its file just once.
"""
import pathlib
import shutil
import subprocess
import sys
import tempfile

CRATE = pathlib.Path(__file__).resolve().parent.parent / "crates/definitions"

# What the change says, the file below specs, the text and what stands in its place.
CHANGES = [
    ("a sort keeps the order of its input", "Plans/PlanSpace", "order_of (Sort input order) = order\n", "order_of (Sort input order) = order_of input\n"),
    (
        "folding forgets an order that a later merge needs",
        "Plans/Folding",
        "      ⊎ OpensMerge tables (order_at space order)",
        "      ⊎ (OpensMerge tables (order_at space order) × ⊥)",
    ),
    (
        "a merge takes columns as one class that are so only under all tables",
        "Plans/PlanSpace",
        "Satisfies space tables (order_at space order) (ascending x) × IsInner y inner",
        "Satisfies space (whole space) (order_at space order) (ascending x) × IsInner y inner",
    ),
    (
        "a table may come next anywhere",
        "Plans/PlanSpace",
        "((space.free_products ≡ true) ⊎ Links",
        "((space.table_count ≡ space.table_count) ⊎ Links",
    ),
    (
        "a merge without the order of its inner side",
        "Plans/PlanSpace",
        "Satisfies space tables (order_at space order) (ascending x) × IsInner y inner",
        "Satisfies space tables (order_at space order) (ascending x) × IsPath no_tables inner.path",
    ),
    ("costs do not stop at 10^18", "Plans/Cost", "saturated n = min n limit", "saturated n = n"),
    (
        "the rule on sorts is left out",
        "Plans/Comparisons",
        "CanSort space tables into → Folds space tables into folded\n",
        "CanSort space tables into → Folds space tables into folded → 1 ≤ 0\n",
    ),
    (
        "the rule on merges is left out",
        "Plans/Comparisons",
        "→ Folds space (with_table tables (table_of inner.path)) order folded\n",
        "→ Folds space (with_table tables (table_of inner.path)) order folded → 1 ≤ 0\n",
    ),
    (
        "the rule on accesses is left out",
        "Plans/Comparisons",
        "→ Folds space (only (table_of path)) (space.path_order path) folded\n",
        "→ Folds space (only (table_of path)) (space.path_order path) folded → 1 ≤ 0\n",
    ),
    (
        "a state that isn't listed bounds nothing",
        "Plans/Certificate",
        "listed_or certificate.target certificate.states tables order",
        "listed_or 0 certificate.states tables order",
    ),
    (
        "the target is believed",
        "Plans/Validity",
        "IsMet plan = InSpace space plan × GivesRequired space plan × (cost_of space plan ≡ certificate.target)",
        "IsMet plan = InSpace space plan × GivesRequired space plan",
    ),
    (
        "a listed state may have all tables and the required order",
        "Plans/Validity",
        "TargetHolds plan = NoneFinal × IsMet plan",
        "TargetHolds plan = IsMet plan",
    ),
    (
        "a sort into an order over other tables",
        "Plans/PlanSpace",
        "CanSort tables order = (order ≢ 0) × IsOver space tables order",
        "CanSort tables order = (order ≢ 0) × IsOver space (whole space) order",
    ),
    (
        "directions of keys are not compared",
        "Plans/ColumnClass",
        "(key.descending ≡ wanted.descending) × SameClass",
        "(key.descending ≡ key.descending) × SameClass",
    ),
    (
        "an order that is listed already is numbered again",
        "Lists",
        "without_repeats same (x ∷ xs) = x ∷ filter (λ y. not (same x y)) (without_repeats same xs)",
        "without_repeats same (x ∷ xs) = x ∷ without_repeats same xs",
    ),
]


def is_refused(folder, name, old, new):
    """Whether the crate in a folder is no longer proved once a text of a file is replaced; the file is put back."""
    path = folder / f"specs/{name}.antt"
    text = path.read_text()
    if text.count(old) != 1:
        sys.exit(f"the text stands {text.count(old)} times in {path.name}: {old}")
    path.write_text(text.replace(old, new))
    try:
        ran = subprocess.run(["rt", "check"], cwd=folder, capture_output=True, text=True, errors="replace")
    finally:
        path.write_text(text)
    return "logic=proved" not in ran.stdout + ran.stderr


def main():
    chosen = [int(word) for word in sys.argv[1:]] or range(1, len(CHANGES) + 1)
    kept = 0
    with tempfile.TemporaryDirectory() as room:
        top = pathlib.Path(room)
        (top / "crates.txt").write_text("definitions: csv\n")
        folder = top / "crates/definitions"
        for part in ("src", "specs", "proofs"):
            shutil.copytree(CRATE / part, folder / part)
        for number in chosen:
            what, *change = CHANGES[number - 1]
            refused = is_refused(folder, *change)
            kept += not refused
            print(f"{number:2} {what}: {'refused' if refused else 'STILL PROVED'}", flush=True)
    sys.exit(1 if kept else 0)


if __name__ == "__main__":
    main()
