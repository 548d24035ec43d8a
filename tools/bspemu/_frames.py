"""Tables of pandas, each with one kind of row, from the output of the tools."""

from __future__ import annotations

import csv
import io
import json
from fractions import Fraction
from typing import TYPE_CHECKING, Any, Dict, Iterable, List

from bsptools.counts import source_listing
from bsptools.outputs.report import Report
from bsptools.outputs.report_formats import of_json
from bsptools.plot import profile as profiles
from bsptools.plot.profile import Profile
from bsptools.prices import TOTAL, number

from ._tools import BspError

if TYPE_CHECKING:
    import pandas

# Columns of the table of a sweep with whole numbers, and with numbers that prices make.
WHOLE, PRICED = ("nodes", "supersteps", "w", "h", "m"), ("g", "l", "total")


def frame(rows: Iterable[Dict[str, Any]], columns: Dict[str, str]) -> pandas.DataFrame:
    """A table of these rows, with a type for each column."""
    try:
        import pandas as pd
    except ImportError as error:
        raise BspError("pandas is missing: apt-get install python3-pandas, or pip install pandas") from error
    return pd.DataFrame(list(rows), columns=list(columns)).astype(columns)


def report_of(content: bytes) -> Report:
    """A report as bsprun writes it as JSON."""
    return of_json(json.loads(content))


def profile_of(text: str) -> Profile:
    """A profile as bsprun writes it."""
    return profiles.parse(text)


def supersteps(report: Report) -> pandas.DataFrame:
    """A row for each superstep."""
    rows = [{"superstep": it.number, **it.costs, "end": it.end} for it in report.supersteps]
    return frame(rows, {"superstep": "int64", **dict.fromkeys(report.supersteps[0].costs, "int64"), "end": "str"})


def ranks(profile: Profile) -> pandas.DataFrame:
    """A row for each rank in each superstep."""
    rows = [{"superstep": it.number, "rank": rank, **share._asdict()} for it in profile.supersteps for rank, share in enumerate(it.shares)]
    return frame(rows, {"superstep": "int64", "rank": "int64", **{name: "str" if name == "state" else "int64" for name in profiles.Share._fields}})


def transfers(profile: Profile) -> pandas.DataFrame:
    """A row for each two ranks of which one sent to the other in a superstep."""
    rows = [
        {"superstep": it.number, "rank": rank, "to": to, "bytes": count} for it in profile.supersteps for (rank, to), count in it.transfers.items()
    ]
    return frame(rows, dict.fromkeys(("superstep", "rank", "to", "bytes"), "int64"))


def lines(text: str) -> pandas.DataFrame:
    """A row for each line that costs something."""
    listing = source_listing.parse(text)
    rows = []
    for it in listing.lines:
        file = listing.files[it.file] if it.file >= 0 else None
        source = file.text[it.number - 1].strip() if file and 0 < it.number <= len(file.text) else ""
        name = file.name if file else ""
        rows.append({"file": name, "line": it.number, "function": it.function, "w": it.paid, "w_with_calls": it.folded, "h": it.h, "source": source})
    numbers = dict.fromkeys(("w", "w_with_calls", "h"), "int64")
    return frame(rows, {"file": "str", "line": "int64", "function": "str", **numbers, "source": "str"})


def sweep(table: str) -> pandas.DataFrame:
    """The table of a sweep. What a run that was not made lacks is missing; a setting is a number if it is one in each row."""
    import pandas as pd

    rows = list(csv.DictReader(io.StringIO(table)))
    found = frame(rows, dict.fromkeys(rows[0], "str") if rows else {})
    for name in found.columns:
        values = list(found[name])
        if name in WHOLE:
            found[name] = pd.array([int(it) if it else pd.NA for it in values], dtype="Int64")
        elif name in PRICED:
            found[name] = priced(values, pd)
        elif name not in ("program", "machine", "input", "args", "outcome") and all(it.isascii() and it.isdigit() for it in values):
            found[name] = pd.array([int(it) for it in values], dtype="Int64")
    return found


def priced(values: List[str], pd: Any) -> Any:
    """Prices or totals: whole numbers if all of them are, and else floating point. The table has them exactly."""
    known = [number(it, TOTAL) if it else None for it in values]
    if any(isinstance(it, Fraction) for it in known):
        return pd.array([float(it) if it is not None else pd.NA for it in known], dtype="Float64")
    most = max([it for it in known if it is not None] or [0])
    return pd.array([pd.NA if it is None else it for it in known], dtype="Int64" if most < 1 << 63 else object)
