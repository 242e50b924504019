#!/usr/bin/env python3
"""Two versions of an archive, each line of the benchmark, over several layouts of the program:

    layouts.py OUT BEFORE AFTER COUNT

Each layout is measured once, in every second one with the versions exchanged. Prints, for each line, the time after by the time
before, and both to the ordinary program: the median over the layouts, the least and the most. OUT/log has every run.
"""

import os
import re
import statistics
import subprocess
import sys

LINE = re.compile(r"(.*?):.* (\w+) +([\d.]+) ns +(\w+) +([\d.]+) ns +Rust +([\d.]+) ns .*")


def spread(values):
    return f"{statistics.median(values):.3f} ({min(values):.2f}, {max(values):.2f})"


def main():
    out, before, after, count = sys.argv[1:]
    here = os.path.dirname(os.path.abspath(__file__))
    os.makedirs(out, exist_ok=True)
    lines = {}
    with open(os.path.join(out, "log"), "w") as log:
        for layout in range(1, int(count) + 1):
            sides = ["before", before, "after", after]
            if layout % 2 == 0:
                sides = sides[2:] + sides[:2]
            command = [os.path.join(here, "measure.sh"), out, *sides, str(layout)]
            printed = subprocess.run(command, check=True, stdout=subprocess.PIPE, text=True).stdout
            log.write(f"layout {layout}\n{printed}")
            for line in printed.splitlines():
                match = LINE.fullmatch(line)
                if not match:
                    sys.exit(f"layouts: a line of another form: {line}")
                name, first, x, second, y, rust = match.groups()
                taken = {first: float(x), second: float(y), "Rust": float(rust)}
                lines.setdefault(name, []).append(taken)
    print(f"{'':40}  {'after by before':24}{'before to Rust':24}after to Rust")
    for name, runs in lines.items():
        print(f"{name:40}", end="")
        for one, other in ("after", "before"), ("before", "Rust"), ("after", "Rust"):
            print(f"  {spread([r[one] / r[other] for r in runs]):22}", end="")
        print()


main()
