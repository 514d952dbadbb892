"""A plain evaluation of a clause, which `.ci/random` and `.ci/answers` hold the program to. It tries the words of the pattern one after
another, in the order in which the standard prefers them, goes over the match again for each value, and remembers nothing.

Rows are dictionaries by column, numbered from 1. A partition that isn't closed may have more of them: what these decide is OPEN."""
import itertools
from typing import Callable, NamedTuple

GREATEST = 2**63 - 1
STEPS = 60_000
OPEN = type("Open", (), {"__repr__": lambda self: "OPEN"})()


class TooLong(Exception):
    """The plain evaluation has tried too much."""


# ---- patterns: how one is written, and its words


def variable(name):
    return ("variable", name)


def quantified(body, least, most, reluctant=False):
    return ("quantified", body, least, most, reluctant)


def written(form, least=0):
    """A pattern as a text, in brackets where it binds less than this: 0 a choice, 1 a sequence, 2 one that is quantified, 3 another."""
    kind = form[0]
    if kind == "choice":
        text, binds = " | ".join(written(part, 1) for part in form[1]), 0
    elif kind == "sequence":
        text, binds = " ".join(written(part, 2) for part in form[1]), 1
    elif kind == "quantified":
        text, binds = written(form[1], 3) + quantifier(*form[2:]), 2
    else:
        text, binds = written_alone(form), 3
    return text if binds >= least else f"({text})"


def written_alone(form):
    if form[0] == "variable":
        return form[1]
    if form[0] == "permute":
        return "PERMUTE(" + ", ".join(written(part) for part in form[1]) + ")"
    if form[0] == "excluded":
        return "{- " + written(form[1]) + " -}"
    return form[0]


def quantifier(least, most, reluctant):
    short = {(0, None): "*", (1, None): "+", (0, 1): "?"}.get((least, most))
    exact = "{%d}" % least if least == most else "{%d,%s}" % (least, "" if most is None else most)
    return (short or exact) + ("?" if reluctant else "")


def parts_of(form):
    return form[1] if form[0] in ("sequence", "choice", "permute") else [form[1]] if form[0] in ("quantified", "excluded") else []


def variables_of(form):
    return {form[1]} if form[0] == "variable" else set().union(*map(variables_of, parts_of(form)))


def has_exclusion(form):
    return form[0] == "excluded" or any(map(has_exclusion, parts_of(form)))


class Label(NamedTuple):
    name: str
    is_shown: bool
    # whether the test of this row, or of one before it, is open
    is_open: bool


class Search:
    """The words of a pattern from a row on whose rows may all be admitted, the preferred one first, as tuples of labels. OPEN stands for
    those that run into the row behind the last known one. `admits` says of the names of labels whether the last row is admitted."""

    def __init__(self, start, count, is_closed, admits):
        self.start, self.count, self.is_closed, self.admits, self.steps = start, count, is_closed, admits, 0

    def first(self, form):
        """The first word, None, or OPEN where rows that may still come decide."""
        word = next(self.words(form, (), True), None)
        return OPEN if word is not OPEN and word and word[-1].is_open else word

    def words(self, form, word, is_shown):
        kind, row = form[0], self.start + len(word)
        if kind == "variable":
            yield from self.mapped(form[1], word, is_shown)
        elif kind == "^":
            yield from [word] * (row == 1)
        elif kind == "$":
            yield from [word if self.is_closed else OPEN] * (row == self.count + 1)
        elif kind == "()":
            yield word
        elif kind == "sequence":
            yield from self.sequence(form[1], word, is_shown)
        elif kind == "choice":
            for part in form[1]:
                yield from self.words(part, word, is_shown)
        elif kind == "permute":
            for order in itertools.permutations(form[1]):
                yield from self.sequence(order, word, is_shown)
        elif kind == "excluded":
            yield from self.words(form[1], word, False)
        else:
            yield from self.iterations(form, 0, word, is_shown)

    def mapped(self, name, word, is_shown):
        self.steps += 1
        if self.steps > STEPS:
            raise TooLong
        if self.start + len(word) > self.count:
            yield from [] if self.is_closed else [OPEN]
            return
        is_open = bool(word) and word[-1].is_open
        seen = OPEN if is_open else self.admits(tuple(label.name for label in word) + (name,))
        if seen is OPEN or seen is True:
            yield word + (Label(name, is_shown, seen is OPEN),)

    def sequence(self, parts, word, is_shown):
        if not parts:
            yield word
            return
        for front in self.words(parts[0], word, is_shown):
            yield from [OPEN] if front is OPEN else self.sequence(parts[1:], front, is_shown)

    def iterations(self, form, count, word, is_shown):
        _, body, least, most, reluctant = form
        if count >= least and reluctant:
            yield word
        if most is None or count < most:
            for front in self.words(body, word, is_shown):
                # an iteration beyond the required ones takes a row
                if front is OPEN:
                    yield OPEN
                elif count < least or len(front) > len(word):
                    yield from self.iterations(form, count + 1, front, is_shown)
        if count >= least and not reluctant:
            yield word


# ---- expressions: a text, how tightly it binds, and what it comes to


class Look(NamedTuple):
    """What an expression is looked at with: the rows, the first one of the match, the variables of those that are mapped, how many of these
    are seen by what is running, and the rest that the clause says."""

    rows: list
    start: int
    names: tuple
    seen: int
    is_closed: bool = True
    unions: dict = {}
    number: int | None = None

    def of(self, name, is_final=False):
        """The rows that are mapped to a variable or a union, or all of the match."""
        names = self.names if is_final else self.names[: self.seen]
        members = self.unions.get(name, [name])
        return [row for row, label in enumerate(names, self.start) if name is None or label in members]

    def cell(self, row, column):
        if row is not None and row > len(self.rows) and not self.is_closed:
            return OPEN
        return self.rows[row - 1][column] if row is not None and 1 <= row <= len(self.rows) else None


class Expression(NamedTuple):
    text: str
    value: Callable
    binds: int = 9


def inside(expression, least):
    return expression.text if expression.binds >= least else f"({expression.text})"


def fitted(value):
    return value if -GREATEST - 1 <= value <= GREATEST else None


def ordered(value):
    return value.encode() if isinstance(value, str) else value


def literal(value):
    if isinstance(value, str):
        return Expression("'" + value.replace("'", "''") + "'", lambda look: value)
    return Expression(str(value), lambda look: value, 9 if value >= 0 else 7)


def named(name, column):
    return f"{name}.{column}" if name else column


def navigation(name, column, inner=None, offset=None, outer=None, by=None, mode=None):
    """A column of a variable's rows: `inner` is FIRST or LAST with its offset, `outer` PREV or NEXT with its own, `mode` RUNNING or FINAL.
    What is None isn't written."""
    text = named(name, column)
    if inner:
        text = f"{mode + ' ' if mode else ''}{inner}({text}{'' if offset is None else f', {offset}'})"
    if outer:
        text = f"{outer}({text}{'' if by is None else f', {by}'})"
    steps = 0 if outer is None else (1 if by is None else by) * (-1 if outer == "PREV" else 1)

    def value(look):
        rows, places = look.of(name, mode == "FINAL"), offset or 0
        if places >= len(rows):
            return None
        return look.cell((rows[places] if inner == "FIRST" else rows[-1 - places]) + steps, column)

    return Expression(text, value)


def aggregate(function, name, column, mode=None):
    def value(look):
        rows = look.of(name, mode == "FINAL")
        if column == "*":
            return len(rows)
        cells = [look.cell(row, column) for row in rows if look.cell(row, column) is not None]
        if function == "COUNT":
            return len(cells)
        if not cells:
            return None
        return fitted(sum(cells)) if function == "SUM" else (max if function == "MAX" else min)(cells, key=ordered)

    return Expression(f"{mode + ' ' if mode else ''}{function}({named(name, column)})", value)


MATCH_NUMBER = Expression("MATCH_NUMBER()", lambda look: look.number)
CLASSIFIER = Expression("CLASSIFIER()", lambda look: look.names[look.seen - 1] if look.seen else None)


def arithmetic(sign, left, right):
    binds = 6 if sign == "*" else 5

    def value(look):
        a, b = left.value(look), right.value(look)
        if a is OPEN or b is OPEN:
            return OPEN
        if a is None or b is None:
            return None
        return fitted(a + b if sign == "+" else a - b if sign == "-" else a * b)

    return Expression(f"{inside(left, binds)} {sign} {inside(right, binds + 1)}", value, binds)


def negative(inner):
    def value(look):
        a = inner.value(look)
        return a if a is OPEN or a is None else fitted(-a)

    return Expression(f"-{inside(inner, 8)}", value, 7)


COMPARE = {
    "=": lambda a, b: a == b, "<>": lambda a, b: a != b, "<": lambda a, b: a < b,
    "<=": lambda a, b: a <= b, ">": lambda a, b: a > b, ">=": lambda a, b: a >= b,
}


def compare(sign, left, right):
    def judged(look):
        a, b = left.value(look), right.value(look)
        if a is OPEN or b is OPEN:
            return OPEN
        return None if a is None or b is None else COMPARE[sign](ordered(a), ordered(b))

    return Expression(f"{inside(left, 5)} {sign} {inside(right, 5)}", judged, 4)


def is_null(operand, is_negated=False):
    def judged(look):
        a = operand.value(look)
        return OPEN if a is OPEN else (a is None) != is_negated

    return Expression(f"{inside(operand, 5)} IS {'NOT ' if is_negated else ''}NULL", judged, 4)


def joined(word, binds, decides, left, right):
    """Two conditions by AND or OR, of which a side that is false, or true, decides."""
    def judged(look):
        a, b = left.value(look), right.value(look)
        if a is decides or b is decides:
            return decides
        return OPEN if a is OPEN or b is OPEN else None if a is None or b is None else not decides

    return Expression(f"{inside(left, binds)} {word} {inside(right, binds + 1)}", judged, binds)


def both(left, right):
    return joined("AND", 2, False, left, right)


def either(left, right):
    return joined("OR", 1, True, left, right)


def negated(inner):
    def judged(look):
        a = inner.value(look)
        return a if a is OPEN or a is None else not a

    return Expression(f"NOT {inside(inner, 4)}", judged, 3)


# ---- a clause, and its answer on a partition


class Clause(NamedTuple):
    """A clause over a table of these columns. `rows` is what PER MATCH says, as `ALL ROWS PER MATCH`, or nothing."""

    columns: list
    form: tuple
    definitions: dict
    measures: list = []
    partition_by: list = []
    order_by: list = []
    rows: str = ""
    skip: str = ""
    unions: dict = {}

    def text(self):
        parts = [
            ("PARTITION BY", self.partition_by),
            ("ORDER BY", [f"{column} {order}".strip() for column, order in self.order_by]),
            ("MEASURES", [f"{measure.text} AS {name}" for name, measure in self.measures]),
            ("", [self.rows] * bool(self.rows)),
            ("AFTER MATCH SKIP", [self.skip] * bool(self.skip)),
            ("PATTERN", [f"({written(self.form)})"]),
            ("SUBSET", [f"{name} = ({', '.join(members)})" for name, members in self.unions.items()]),
            ("DEFINE", [f"{name} AS {condition.text}" for name, condition in self.definitions.items()]),
        ]
        return " ".join(f"{word} {', '.join(items)}".strip() for word, items in parts if items)

    def partitions(self, rows):
        """The partitions of some rows by their keys, each in its order."""
        found = {}
        for row in rows:
            found.setdefault(tuple(row[column] for column in self.partition_by), []).append(row)
        for column, order in reversed(self.order_by):
            place = lambda row, column=column: (row[column] is None, 0 if row[column] is None else ordered(row[column]))
            found = {key: sorted(part, key=place, reverse=order == "DESC") for key, part in found.items()}
        return found

    def lines(self, key, rows, is_closed=True):
        """The lines of the answer on a partition, as far as these rows decide."""
        items = itertools.takewhile(lambda item: item is not OPEN, self.items(key, rows, is_closed))
        return [{**item, "key": list(key), "place": str(place)} for place, item in enumerate(items, 1)]

    def items(self, key, rows, is_closed):
        """The same one after another, with OPEN where rows that may still come decide."""
        number, start, covered = 0, 1, 0
        while start <= len(rows):
            word = self.search(rows, start, is_closed)
            if word is OPEN:
                yield OPEN
                return
            if word is None:
                if "UNMATCHED" in self.rows and start > covered:
                    yield self.row_item(key, rows[start - 1], None, [None] * len(self.measures))
                start += 1
            else:
                number, covered = number + 1, max(covered, start + len(word) - 1)
                yield from self.match_items(key, rows, is_closed, start, word, number)
                start = self.resumed(start, [label.name for label in word])
                if isinstance(start, str):
                    yield {"fault": start}
                    return
        yield {"end": True} if is_closed else OPEN

    def search(self, rows, start, is_closed):
        def admits(names):
            condition = self.definitions.get(names[-1])
            return condition is None or condition.value(Look(rows, start, names, len(names), is_closed, self.unions))

        return Search(start, len(rows), is_closed, admits).first(self.form)

    def match_items(self, key, rows, is_closed, start, word, number):
        def measured(seen):
            look = Look(rows, start, tuple(label.name for label in word), seen, is_closed, self.unions, number)
            return [measure.value(look) for _, measure in self.measures]

        if "ALL" not in self.rows:
            values = measured(len(word))
            yield OPEN if OPEN in values else {"number": number, "cells": [*key, *values]}
        elif not word and "OMIT" not in self.rows:
            yield self.row_item(key, rows[start - 1], number, measured(0))
        for place, label in enumerate(word if "ALL" in self.rows else ()):
            if label.is_shown:
                yield self.row_item(key, rows[start - 1 + place], number, measured(place + 1))

    def output_columns(self):
        """The names of the cells of a line, in their order."""
        sorted_by, measures = [column for column, _ in self.order_by], [name for name, _ in self.measures]
        others = [column for column in self.columns if column not in [*self.partition_by, *sorted_by]]
        named = [*self.partition_by, *sorted_by, *measures, *others] if "ALL" in self.rows else [*self.partition_by, *measures]
        return [name.upper() for name in named]

    def row_item(self, key, row, number, values):
        sorted_by = [column for column, _ in self.order_by]
        others = [row[column] for column in self.columns if column not in [*self.partition_by, *sorted_by]]
        return OPEN if OPEN in values else {"number": number, "cells": [*key, *(row[column] for column in sorted_by), *values, *others]}

    def resumed(self, start, names):
        """The row at which the search resumes behind a match, or the fault."""
        if not names:
            return start + 1
        if self.skip in ("", "PAST LAST ROW"):
            return start + len(names)
        if self.skip == "TO NEXT ROW":
            return start + 1
        *words, name = self.skip.split()
        rows = Look([], start, tuple(names), len(names), unions=self.unions).of(name)
        if not rows:
            return "SkipNoRow"
        row = rows[0] if words[-1] == "FIRST" else rows[-1]
        return "SkipSame" if row == start else row
