"""The words of a clause, and the columns that stand near a place in it."""

from __future__ import annotations

import re
from collections.abc import Iterable, Iterator, Mapping

from ._names import Source, folded

_WORD = re.compile(
    r"""--[^\n]* | '(?:[^']|'')*'? | "(?:[^"]|"")*"? | [A-Za-z_][A-Za-z0-9_]* | [0-9]+ | <> | <= | >= | .
    """,
    re.DOTALL | re.VERBOSE,
)
# Where an operand ends.
_ENDS = {"AND", "OR", "NOT", "AS", "DEFINE", "MEASURES", "ONE", "ALL", "AFTER", "PATTERN", ","}
_BY_ORDER = {"<", "<=", ">", ">="}
_Words = list[tuple[str, int]]  # each with the character at which it begins


def words_near(clause: str, begin: int, end: int) -> list[str]:
    """The words from one character of a clause to another, and those of the operands next to them.

    Names of variables and of functions aren't among them."""
    left, right = operands_near(clause, begin, end)
    inside = [word for word, at in words_with_places(clause) if begin <= at < end]
    return values_among([*left, *inside, *right])


def operands_near(clause: str, begin: int, end: int) -> tuple[list[str], list[str]]:
    """The words of the operands before one character of a clause, and from another one on."""
    words = words_with_places(clause)
    before = (word for word, at in reversed(words) if at < begin)
    after = (word for word, at in words if at >= end)
    return _operand(before, ")", "(")[::-1], _operand(after, "(", ")")


def values_among(words: list[str]) -> list[str]:
    """Words without the names of variables and of functions."""
    return [word for word, then in zip(words, [*words[1:], ""]) if then not in (".", "(")]


def columns_by_order(clause: str, sources: Mapping[str, Source]) -> list[Source]:
    """The columns that a clause compares by ``<``, ``<=``, ``>`` or ``>=``."""
    found: dict[str, Source] = {}
    for word, at in words_with_places(clause):
        if word in _BY_ORDER:
            near = words_near(clause, at, at + len(word))
            found.update({it.text: it for it in columns_of(near, sources)})
    return list(found.values())


def columns_of(words: Iterable[str], sources: Mapping[str, Source]) -> list[Source]:
    """The columns that some of the words name, each once."""
    found: dict[str, Source] = {}
    for word in words:
        source = _column(word, sources)
        if source is not None:
            found[source.text] = source
    return list(found.values())


def _column(word: str, sources: Mapping[str, Source]) -> Source | None:
    if not word.startswith('"'):
        return sources.get(word.upper())
    name = word[1:-1].replace('""', '"')
    return sources.get(name) or sources.get(folded(name))


def words_with_places(clause: str) -> _Words:
    found = ((it[0], it.start()) for it in _WORD.finditer(clause))
    return [(word, at) for word, at in found if not word.isspace() and not word.startswith("--")]


def _operand(words: Iterator[str], opening: str, closing: str) -> list[str]:
    """The words up to the end of an operand, which is none in brackets that it opens itself."""
    depth, found = 0, []
    for word in words:
        depth += (word == opening) - (word == closing)
        if depth < 0 or (depth == 0 and word.upper() in _ENDS):
            break
        found.append(word)
    return found
