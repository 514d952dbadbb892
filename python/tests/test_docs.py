"""The examples in the docs."""

from __future__ import annotations

import doctest
from pathlib import Path

import pytest

# each page, and how many examples it has at least
PAGES = {"docs/PYTHON.md": 11, "README.md": 3}
TOP = Path(__file__).resolve().parents[2]


def examples_of(text):
    """What stands in blocks of pycon, at its lines."""
    inside, lines = False, []
    for line in text.split("\n"):
        if line.startswith("```"):
            inside = line == "```pycon"
            line = ""
        lines.append(line if inside else "")
    return "\n".join(lines)


@pytest.mark.parametrize("page", PAGES)
def test_examples(page, monkeypatch):
    monkeypatch.chdir(TOP)
    text = examples_of((TOP / page).read_text("utf-8"))
    test = doctest.DocTestParser().get_doctest(text, {}, page, page, 0)
    assert len(test.examples) >= PAGES[page]
    told = []
    failed, _ = doctest.DocTestRunner(verbose=False).run(test, out=told.append)
    assert failed == 0, "".join(told)
