"""The expected results of a sheet in a file, for users who do not have the solution."""

from __future__ import annotations

import json
from typing import Any, Dict, List, Sequence

from ..files import named_content, whole, write
from ..refusals import Refused, why_unfit
from ..sealed_results import digest
from .hand_in_trial import RunPlan
from .marks import Wanted
from .sheet import Run, Sheet

MOST_BYTES = 1 << 28


def name_of(plan: RunPlan) -> str:
    """The name of a run by all that its output follows from."""
    return digest(repr([plan.nodes, plan.defines, plan.input, plan.args, plan.given]).encode(errors="surrogateescape"))[:16]


def write_to(path: str, runs: Sequence[Run], plans: Sequence[RunPlan], wanted: Sequence[Wanted]) -> None:
    """Keeps what is wanted. A line for each run, so that one sees in a version of the file which of them changed."""
    lines = []
    for run, plan, it in zip(runs, plans, wanted):
        output = (it.output or b"").decode("latin-1")
        entry: Dict[str, Any] = {"run": str(run), "output": output, "costs": it.costs, "supersteps": it.supersteps}
        lines.append(f"{json.dumps(name_of(plan))}: {json.dumps(entry)}")
    write(path, "{\n" + ",\n".join(dict.fromkeys(lines)) + "\n}\n")


def wanted_of(entry: Dict[str, Any], plan: RunPlan) -> Wanted:
    """What is wanted of a run, as the file has it. It may have come with a sheet of somebody else. The sheet may have other prices since then,
    at which the cost is another one."""
    costs = {name: whole(it) for name, it in entry["costs"].items()}
    costs["cost"] = costs["w"] + plan.g * costs["h"] + plan.l * costs["supersteps"]
    supersteps = [[whole(w), whole(h), whole(m)] for w, h, m in entry["supersteps"]]
    return Wanted(entry["output"].encode("latin-1"), costs, supersteps)


def read(sheet: Sheet, runs: Sequence[Run], plans: Sequence[RunPlan]) -> List[Wanted]:
    """What a file keeps of the runs of a sheet."""
    path = sheet.file(sheet.wanted)
    try:
        known = json.loads(named_content(path, MOST_BYTES))
        found = [known.get(name_of(it)) for it in plans]
        lacks = [run for run, it in zip(runs, found) if it is None]
        if not lacks:
            return [wanted_of(it, plan) for it, plan in zip(found, plans)]
    except (ValueError, TypeError, KeyError, AttributeError, RecursionError) as error:
        raise Refused(f"{path} was not written by bspcheck --freeze: {why_unfit(error)}") from error
    raise Refused(
        f"{path} has nothing for {lacks[0]}: it was made for another sheet or seed. Run bspcheck --freeze with the solution again"
    )
