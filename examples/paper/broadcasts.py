"""Two broadcasts on three machines, on 1 to 64 nodes: the table, the curves and the map of a paper, into a folder."""

import os
import pathlib
import sys

import bspemu

os.environ["BSP_MACHINES"] = "examples/paper/machines.txt"
out = pathlib.Path(sys.argv[1])
out.mkdir(exist_ok=True)

sweep = bspemu.sweep(
    "examples/c/spread.c",
    defines={"PHASES": [1, 2], "N": [256]},
    nodes=[1, 2, 4, 8, 16, 32, 64],
    machines=["t3e", "cluster", "board"],
)
sweep.save(out / "broadcasts.csv")
sweep.tex(out / "table.tex", panels="machine", by="PHASES")
for kind in ("pdf", "tex"):
    sweep.curves(out / f"curves.{kind}", panels="machine", by="PHASES", size="6.5in", font="serif")
    sweep.map(out / f"map.{kind}", only="nodes=4,16,64", by="PHASES", size="6.5in", font="serif", g_range="0.01:100", l_range="1:1000000")
print(sweep.frame.pivot_table(values="total", index="nodes", columns=["machine", "PHASES"]).astype(int))
