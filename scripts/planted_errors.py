#!/usr/bin/env python3
"""Plants errors in the definition of the card, one at a time, and tells which proofs notice.

    scripts/planted_errors.py [NAME ..]

Each error is a change of the definition that a careless hand could make. It is made in a copy of the crates, and the
crates of the model and of its theorems are checked there, as far as what they build on proves. An error that no proof notices is told at
the end, and the exit status is then 1. Without names all errors are planted; each takes a few minutes.
"""
import os
import re
import shutil
import subprocess
import sys
import tempfile
from concurrent.futures import ThreadPoolExecutor

SPECS = "crates/cardmodel/specs/"
# each crate, and those that must prove before it can be checked
CRATES = {"cardmodel": (), "stallcard": ("cardmodel",), "cardlaws": ("cardmodel",), "secrecy": ("cardmodel", "cardlaws")}

# name: what is wrong, and the changes (file, old, new)
ERRORS = {
    "bar-on-tested-columns": ("UPDATE through a view may write a column that another view tests", [
        ("CursorRules.antt", "cond (x.to.column.unique || tested_in os w.table x.to.number) (Some x.named)",
         "cond x.to.column.unique (Some x.named)")]),
    "bar-on-unique-columns": ("UPDATE through a view may write a unique column", [
        ("CursorRules.antt", "cond (x.to.column.unique || tested_in os w.table x.to.number) (Some x.named)",
         "cond (tested_in os w.table x.to.number) (Some x.named)")]),
    "conditions-on-hidden-columns": ("a cursor may test columns that its object does not show", [
        ("CursorRules.antt", "(unless_at (first_foreign (window k.objects.records o) (names_in s)) foreign",
         "(unless_at (first_foreign (window k.objects.records o) s.columns) foreign"),
        ("CursorRules.antt", "tests = somes (tests_of (shown_column w) s.conditions) }",
         "tests = somes (tests_of (column_named w.held) s.conditions) }"),
        ("CursorRules.antt", "shown_column, numbers_of,", "column_named, shown_column, numbers_of,")]),
    "fetch-of-hidden-columns": ("a cursor may show columns that its object does not show", [
        ("CursorRules.antt", "(unless_at (first_foreign (window k.objects.records o) (names_in s)) foreign",
         "(unless_at (first_foreign (window k.objects.records o) (condition_columns s.conditions)) foreign"),
        ("CursorRules.antt", "chosen_columns w (p ∷ ps) = numbers_of (shown_column w) (p ∷ ps)",
         "chosen_columns w (p ∷ ps) = numbers_of (column_named w.held) (p ∷ ps)"),
        ("CursorRules.antt", "shown_column, numbers_of,", "column_named, shown_column, numbers_of,"),
        ("CursorRules.antt", "first_foreign, names_in}", "first_foreign, condition_columns, names_in}")]),
    "whole-row-measured": ("UPDATE is refused where the whole new row is longer than 10 bytes", [
        ("CursorRules.antt", "(unless (replaces rs i (written ws (slice_index_or rs i []))) store_refuses",
         "(unless (nat_le (length (encoded (written ws (slice_index_or rs i [])))) 10) store_refuses")]),
    "unknown-told-from-unreached": ("DECLARE CURSOR tells an unknown object from one that is not reached", [
        ("CursorRules.antt", "with_found (object_named k.objects.records s.source.bytes) not_allowed (λ o.",
         "with_found (object_named k.objects.records s.source.bytes) (missing s.source.place) (λ o.")]),
    "insert-without-right": ("INSERT asks for no right", [
        ("CursorRules.antt", "unless (may k.privileges.records u t (λ r. r.insert)) not_allowed", "unless true not_allowed")]),
    "cursor-of-a-dropped-object": ("DROP leaves a cursor on what it drops", [
        ("CatalogueRules.antt", "cursor = cursor_kept a.catalogue.objects.records c.cursor;", "cursor = c.cursor;")]),
    "refused-fetch-next-moves": ("a FETCH NEXT that is refused for its length moves the cursor on", [
        ("Verdict.antt", "card_after c (refused x) = c",
         "card_after c (refused x) = cond ((refusal x).cause == 20) (record { catalogue = c.catalogue; rows = c.rows; "
         "current = c.current; cursor = one_on c.cursor }) c"),
        ("Verdict.antt", "-- A refusal leaves the card as it was.",
         "abbrev one_on : Cursor → Cursor\none_on absent = absent\none_on (declared s) = declared s\n"
         "one_on (on_row s i) = on_row s (i + 1)\none_on (ended s) = ended s\n"),
        ("Verdict.antt", "{ℕ, ◌+◌, Bool, cond,", "{ℕ, ◌+◌, ◌==◌, Bool, cond,"),
        ("Verdict.antt", "State.{Bytes, Card}", "State.{Bytes, Cursor, absent, declared, on_row, ended, Card}")]),
    "causes-in-another-order": ("CREATE VIEW looks at the columns before it asks for the owner", [
        ("CatalogueRules.antt",
         "    unless (owns u t) not_allowed\n    (unless_at (first_foreign (window k.objects.records t) (names_in s)) foreign\n",
         "    unless_at (first_foreign (window k.objects.records t) (names_in s)) foreign\n    (unless (owns u t) not_allowed\n")]),
}


def planted(copy, changes):
    for name, old, new in changes:
        path = os.path.join(copy, SPECS, name)
        text = open(path).read()
        if text.count(old) != 1:
            sys.exit(f"{name}: this text is there {text.count(old)} times, and not once: {old}")
        open(path, "w").write(text.replace(old, new))


def failures(said):
    """What a check says is not proved: functions, and the first places in proofs or definitions."""
    functions = [line.split(": ")[0] for line in said if re.match(r"(fn|impl) .*: (not proved|no proof)", line)]
    places = [re.sub(r": error: (`[^`]*`)?.*", r" \1", line) for line in said if re.match(r"\./\S+: error: ", line)]
    return functions, places


def noticed(name):
    """For each crate that could be checked and failed: its functions and places."""
    found = []
    with tempfile.TemporaryDirectory() as copy:
        shutil.copytree("crates", os.path.join(copy, "crates"), ignore=shutil.ignore_patterns("out", "target"))
        shutil.copy("crates.txt", copy)
        planted(copy, ERRORS[name][1])
        failed = set()
        for crate, below in CRATES.items():
            if failed.intersection(below):
                failed.add(crate)
                continue
            said = subprocess.run(["rt", "check"], cwd=os.path.join(copy, "crates", crate), capture_output=True, text=True)
            lines = (said.stdout + said.stderr).split("\n")
            if not any(line.startswith("logic=proved") for line in lines[-3:]):
                failed.add(crate)
                found.append((crate, *failures(lines)))
    return found


def main():
    names = sys.argv[1:] or list(ERRORS)
    for name in names:
        if name not in ERRORS:
            sys.exit(f"no error is named {name}; there are {', '.join(ERRORS)}")
    unseen = []
    with ThreadPoolExecutor(2) as pool:
        for name, found in zip(names, pool.map(noticed, names)):
            print(f"{name}: {ERRORS[name][0]}")
            if not found:
                unseen.append(name)
                print("  no proof notices it")
            for crate, functions, places in found:
                print(f"  {crate}: {', '.join(functions) or 'a definition does not check'}")
                for place in places[:3]:
                    print(f"    {place}")
            sys.stdout.flush()
    if unseen:
        sys.exit(f"not noticed: {', '.join(unseen)}")


if __name__ == "__main__":
    main()
