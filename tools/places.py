#!/usr/bin/env python3
"""Lists places in the crates' sources that a newer form of the language may serve better, one kind at a time.

    tools/places.py KIND [COMMIT]

KIND is one of the words below; COMMIT takes the sources of that commit instead of the working tree. Each line is a
place to look at, and the last line is their number. What became of them is told in docs/DESIGN-PASS.md.

    results    own enums; functions that move a reader and answer Option; flags and numbers for kinds in structs
    twins      runs of lines in two places that differ in names at most (the machine's tool `duplicates`)
    loops      every loop
    written    impls of From, TryFrom and Display, and functions that turn codes, kinds or causes into one another
    derives    types that can be copied and not compared or shown
    clauses    clauses that stand alike in three functions or more
    together   parameters that stand side by side in three functions or more
    buffers    arrays, and structs with a length, a count or a position
    switches   matches on a kind of step, and function pointers
    answers    answers of proofs that only search with the common rules
    repeats    answers of proofs that stand alike, in one crate, in three goals or more
"""
import collections
import os
import re
import subprocess
import sys
import tempfile

CODES = (r"fn (words|of|carries_\w+|operation_of|read_(?:profile|right)|status_of|cause_words|marked_place|"
         r"\w+_sign|\w+_status|expected_length|ended|digit|compare|column_name)\b")


def files(commit, ending, part):
    """The files of all crates, in a part of them, as path and lines."""
    if commit:
        names = subprocess.run(["git", "ls-tree", "-r", "--name-only", commit, "crates"], capture_output=True, text=True,
                               check=True).stdout.split("\n")
    else:
        names = [os.path.join(d, f) for d, _, fs in os.walk("crates") for f in fs]
    for name in sorted(names):
        if not name.endswith(ending) or f"/{part}/" not in name or "/out/" in name or "/target/" in name:
            continue
        if commit:
            text = subprocess.run(["git", "show", f"{commit}:{name}"], capture_output=True, text=True, check=True).stdout
        else:
            text = open(name).read()
        yield name, text.split("\n")


def is_code(line):
    return not line.lstrip().startswith("//") and not line.startswith("ghost use")


def signatures(lines):
    """Each function, as line number, its head up to the body, and its clauses."""
    at = 0
    while at < len(lines):
        if is_code(lines[at]) and re.search(r"\bfn \w+", lines[at]):
            start, head = at, []
            while at < len(lines) and not lines[at].rstrip().endswith(";") and lines[at].strip() != "{" \
                    and not (lines[at].rstrip().endswith("{")):
                head.append(lines[at].strip())
                at += 1
            head.append(lines[at].strip() if at < len(lines) else "")
            yield start + 1, " ".join(head)
        at += 1


def in_three(found, said):
    """What stands in three places or more, with what is said of it."""
    for what, where in found.items():
        if len(where) >= 3:
            for name, at in where:
                yield name, at, said(what)


def results(commit):
    yield from lines_like(commit, r"^\s*(pub(\(\w+\))? )?enum \w+|^\s+(pub(\(\w+\))? )?\w+: bool,|"
                                  r"^\s+(pub )?(cause|layer|word|code|kind): u\d+,")
    for name, lines in files(commit, ".rt", "src"):
        for at, head in signatures(lines):
            if "-> Option<" in head and re.search(r"&mut (self|Reader)", head):
                yield name, at, head.split(" ensures")[0]


def twins(commit):
    with tempfile.TemporaryDirectory() as folder:
        for name, lines in files(commit, ".rt", "src"):
            where = os.path.join(folder, name.replace("/src", "")[len("crates/"):-3] + ".rs")
            os.makedirs(os.path.dirname(where), exist_ok=True)
            open(where, "w").write("\n".join(lines))
        said = subprocess.run(["duplicates", "--repo", folder, "--min-lines", "3", "--most", "200"], capture_output=True,
                              text=True).stdout
    for row in said.split("\n"):
        if re.match(r"D\d+ ", row):
            yield row.split(" ", 1)[1], 0, ""


def lines_like(commit, pattern):
    """The lines of code that a pattern finds."""
    for name, lines in files(commit, ".rt", "src"):
        for at, line in enumerate(lines, 1):
            if is_code(line) and re.search(pattern, line):
                yield name, at, line.strip()


def loops(commit):
    return lines_like(commit, r"^\s*(while|loop|for \S.* in )\b")


def written(commit):
    return lines_like(commit, r"^\s*impl.*\b(From|TryFrom|Display)\b.* for |" + CODES)


def derives(commit):
    for name, lines in files(commit, ".rt", "src"):
        for at, line in enumerate(lines, 1):
            if "derive(" in line and "Copy" in line and not ("PartialEq" in line and "Debug" in line):
                yield name, at, lines[at].strip()


def clauses(commit):
    found = collections.defaultdict(list)
    for name, lines in files(commit, ".rt", "src"):
        for at, line in enumerate(lines, 1):
            clause = re.match(r"\s+(?:requires|ensures)(?: \w+)? \{ (.*) \}", line)
            if clause:
                for part in clause.group(1).split(" × "):
                    found[re.sub(r"\b(?:self|reader)\.", "", part).strip("() ")].append((name, at))
    yield from in_three(found, lambda clause: clause)


def together(commit):
    found = collections.defaultdict(list)
    for name, lines in files(commit, ".rt", "src"):
        for at, head in signatures(lines):
            inside = re.search(r"fn \w+(?:<.*?>)?\((.*?)\)(?: ->| ensures| requires| where| \{|;|$)", head)
            if not inside:
                continue
            names = [p.split(":")[0].strip() for p in re.split(r",\s*(?![^<(]*[>)])", inside.group(1)) if ":" in p]
            names = [re.sub(r"^(left|right)_", "", p) for p in names]
            for one, two in {(a, b) for i, a in enumerate(names) for b in names[i + 1:] if a != b}:
                found[one, two].append((name, at))
    yield from in_three(found, " and ".join)


def buffers(commit):
    return lines_like(commit, r"\[[\w:]+; \w+\]|^\s+(pub(\(\w+\))? )?(len|count|size|at|top|places): u\w+,")


def switches(commit):
    return lines_like(commit, r"match (kind|\*call|envelope\.operation|self\.command|source|line|self)\b|: fn\(")


def said_answers(commit):
    for name, lines in files(commit, ".antt", "proofs"):
        if name.endswith("Answers.antt"):
            for at, line in enumerate(lines, 1):
                if re.match(r"[\w+-]+ .*= ", line):
                    rest = [line.split("= ", 1)[1]]
                    for more in lines[at:]:
                        if not more.startswith(" "):
                            break
                        rest.append(more.strip())
                    yield name, at, " ".join(rest)


def answers(commit):
    for name, at, answer in said_answers(commit):
        if answer == "search rules":
            yield name, at, answer


def repeats(commit):
    found = collections.defaultdict(list)
    for name, at, answer in said_answers(commit):
        if len(answer) > 40:
            found[name.split("/")[1], answer].append((name, at))
    yield from in_three(found, lambda said: said[1][:100])


def main():
    kinds = {f.__name__: f for f in (results, twins, loops, written, derives, clauses, together, buffers, switches, answers,
                                     repeats)}
    if len(sys.argv) not in (2, 3) or sys.argv[1] not in kinds:
        sys.exit(__doc__)
    count = 0
    for name, at, line in kinds[sys.argv[1]](sys.argv[2] if len(sys.argv) == 3 else None):
        print(f"{name}:{at}: {line}" if at else name)
        count += 1
    print(count)


if __name__ == "__main__":
    main()
