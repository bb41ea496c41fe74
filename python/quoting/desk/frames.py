"""Tables as DataFrames, where pandas is there."""

from importlib import import_module
from typing import Any, Sequence

from quoting.native import Missing


def frame(columns: Sequence[str], rows: Sequence[Sequence[object]]) -> Any:
    try:
        pandas: Any = import_module("pandas")
    except ImportError:
        raise Missing("a DataFrame needs pandas: apt-get install python3-pandas") from None
    return pandas.DataFrame([list(row) for row in rows], columns=list(columns))
