#!/usr/bin/env python3
"""Asks `rowmatch why` of random clauses over random rows, and tries each of its lines: the clause is written anew without the demand, as
a text, and `rowmatch whole` has to give the match that the line names; and where a term isn't named, it has to give none.
Usage: .ci/edges/why.py [PROGRAM] [CLAUSES]"""
import csv
import io
import json
import operator
import random
import subprocess
import sys
from pathlib import Path

TOP = Path(__file__).resolve().parent.parent.parent
PROGRAM = sys.argv[1] if len(sys.argv) > 1 else TOP / "crates/rowmatch/out/rowmatch"
CLAUSES = int(sys.argv[2]) if len(sys.argv) > 2 else 200
TABLE = "t int, p int, q int"
QUANTIFIERS = ["", "", "", "+", "*", "?", "{2,}", "{3}", "{2,4}", "{2,}?", "+?"]
COMPARISONS = {"=": operator.eq, "<>": operator.ne, "<": operator.lt, "<=": operator.le, ">": operator.gt, ">=": operator.ge}


def random_term(chance, variable):
    number = chance.randint(0, 3)
    return chance.choice([f"p = {number}", f"q < {number}", f"p >= {number}", "p < PREV(p)", "q IS NOT NULL", f"(p = {number} OR q = 1)",
                          f"t - FIRST(t) <= {number}", f"COUNT({variable}.*) <= {number + 1}", "p <> A.p", "NOT (q = 2)"])


def random_clause(chance):
    """The parts of a clause's pattern, and the terms of each variable."""
    variables = "ABCD"[:chance.randint(1, 4)]
    parts = [(variable, chance.choice(QUANTIFIERS)) for variable in variables]
    shared = random_term(chance, "A")
    terms = {v: [random_term(chance, v) for _ in range(chance.randint(1, 3))] + ([shared] if chance.random() < 0.4 else []) for v in variables}
    return parts, {v: list(dict.fromkeys(ts)) for v, ts in terms.items()}


def text_of(parts, terms, head="", without=None):
    """The clause as a text, where a true condition is in the place of a term."""
    pattern = " ".join(variable + quantifier for variable, quantifier in parts)
    definitions = [f"{v} AS " + " AND ".join("1 = 1" if term == without else term for term in ts) for v, ts in terms.items()]
    return f"ORDER BY t {head} PATTERN ({pattern}) DEFINE " + ", ".join(definitions)


def run(command, clause, rows, *words):
    lines = ["t,p,q", *(",".join("" if cell is None else str(cell) for cell in row) for row in rows)]
    return subprocess.run([PROGRAM, command, "--table", TABLE, "--clause", clause, *words], input="\n".join(lines) + "\n", capture_output=True,
                          text=True, timeout=60)


def matches(parts, terms, rows, without=None, skip=""):
    """The first and last row of each match with rows."""
    head = f"MEASURES FIRST(t) AS a, LAST(t) AS z {skip}"
    done = run("whole", text_of(parts, terms, head, without), rows, "--format", "csv")
    assert done.returncode == 0, done.stderr
    return [(int(row["A"]), int(row["Z"])) for row in csv.DictReader(io.StringIO(done.stdout)) if row["A"]]


def written(term):
    """A term as `why` writes it: brackets that are round all of it are left out."""
    return term[1:-1] if term.startswith("(") else term


def wrong_way(way, parts, terms, rows):
    """What is wrong with a line, if anything is."""
    demand, place = way["demand"], (way["first"], way["last"])
    if "term" in demand:
        term = next(t for ts in terms.values() for t in ts if written(t) == demand["term"])
        found = matches(parts, terms, rows, without=term)
        if found[:1] != [place]:
            return f"without {term}: {found[:1]}"
        left, right = demand.get("left"), demand.get("right")
        if left is not None and right is not None and COMPARISONS[demand["operator"]](left, right):
            return f"{term} is true of {left} and {right}"
        return None
    if "quantifier" in demand:
        found = [matches([(v, demand["instead"] + q[len(demand["quantifier"]):]) if (v, q[:len(demand["quantifier"])]) ==
                          (demand["part"], demand["quantifier"]) else (v, q) for v, q in parts], terms, rows)[:1]]
        return None if [place] in found else f"{demand}: {found}"
    rest = [row for row in rows if row[0] != demand["row_between"]]
    found = matches(parts, terms, rest, skip="AFTER MATCH SKIP TO NEXT ROW")
    return None if place in found and place[0] < demand["row_between"] < place[1] else f"{demand}: {found}"


def wrong(seed):
    """What is wrong with the answer to a random clause, if anything is."""
    chance = random.Random(seed)
    parts, terms = random_clause(chance)
    rows = [(t, chance.choice([None, 0, 1, 1, 2, 3]), chance.choice([None, 0, 1, 2])) for t in range(1, chance.randint(2, 9))]
    done = run("why", text_of(parts, terms), rows, "--format", "json")
    said = json.loads(done.stdout) if done.stdout else {}
    found = matches(parts, terms, rows)
    if found:
        is_right = done.returncode == 0 and (said["match"]["first"], said["match"]["last"]) == found[0]
        return None if is_right else f"{found[:1]}: {done}"
    if done.returncode != 1 or said["match"] is not None or said["untried"]:
        return f"no match: {done}"
    named = {way["demand"].get("term") for way in said["ways"]}
    for term in {term for ts in terms.values() for term in ts}:
        if written(term) not in named and matches(parts, terms, rows, without=term):
            return f"{term} isn't named: {done.stdout}"
    return next((why for way in said["ways"] if (why := wrong_way(way, parts, terms, rows))), None)


def main():
    failed = 0
    for seed in range(CLAUSES):
        why = wrong(seed)
        if why:
            failed += 1
            print(f"clause {seed}: {why}")
    print(f"{CLAUSES - failed} passed, {failed} failed")
    sys.exit(failed > 0)


main()
