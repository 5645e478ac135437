"""Tables of rows as DataFrames, where pandas is there, and DataFrames as rows."""
from typing import Any, Dict, Iterable, List, Sequence

Frame = Any  # a pandas.DataFrame; pandas is no dependency
Row = Dict[str, Any]


def frame_of(rows: Sequence[Any], kind: Any) -> Frame:
    """A DataFrame of rows of that kind of named tuple, whose fields are its columns, also where there are no rows."""
    try:
        import pandas
    except ImportError:
        raise ImportError("a DataFrame needs pandas") from None
    return pandas.DataFrame.from_records([tuple(row) for row in rows], columns=list(kind._fields))


def rows_of(table: Any) -> List[Row]:
    """The rows of a DataFrame, or of a list of dicts or named tuples; an empty cell is None."""
    if hasattr(table, "to_dict"):
        table = table.to_dict("records")
    rows: Iterable[Any] = (row._asdict() if hasattr(row, "_asdict") else row for row in table)
    return [{key: None if value is None or value != value else value for key, value in row.items()} for row in rows]
