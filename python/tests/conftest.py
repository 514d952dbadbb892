from __future__ import annotations

import pandas as pd
import pytest

FALL = """PARTITION BY sym ORDER BY t
    MEASURES A.price AS top, LAST(D.price) AS low, COUNT(D.*) AS falls
    PATTERN (A D+ U) DEFINE D AS price < PREV(price), U AS price > PREV(price)"""


@pytest.fixture
def ticks() -> pd.DataFrame:
    return pd.DataFrame(
        {"sym": list("xyxxxxy"), "t": [2, 1, 1, 3, 4, 5, 2], "price": [8, 5, 10, 6, 7, 9, 4]}
    )


@pytest.fixture
def fall() -> str:
    return FALL
