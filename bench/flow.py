"""Measures the time of a maximum flow and its latest cut, and how it grows with the number of arcs.

    python3 bench/flow.py [--program PROGRAM]

PROGRAM is the built program, crates/flow_times/out/flow_times if none is given; `rt run` in crates/flow_times builds it.
It makes networks of four kinds, whose capacities from 1 to 1000 are drawn by a linear congruence, and so the same each
time:

- Chain: one arc after another from the source to the sink.
- Ladder: two chains, with rungs between them that lead across by turns one way and the other.
- Grid: rows of nodes, about as many as a row is long, with arcs to the right and down. The source leads to the first
  node of each row, and the last leads to the sink.
- Random: arcs between nodes that are drawn, four for each node.

Each has about 1000, 10000, 100000 and 1000000 arcs. A grid takes ever more phases, so the largest one takes minutes. The
time is that of the work alone: the processor time of a run that builds the network and finds its maximum
flow and latest cut, less that of a run that only builds it. Of several runs of each the one that used the least counts,
and a run of more than five seconds is the only one. The time is shown for each arc, with the number of phases. The
growth is how many times longer ten times the arcs take.

The bar, on chains and ladders alone: from 10000 arcs on, ten times the arcs take at most 16 times the time. (Twice the
arcs then take at most 2.3 times the time. A larger network fits a processor's caches less well, so even one that takes
the same steps for each arc takes longer for it.) Smaller networks are too quick to be measured well.

The status is 0 where no bar is missed, 1 where one is, and 2 where something could not be measured. Linux alone.
"""

import tempfile
from pathlib import Path
from typing import NamedTuple

import measure
from measure import Bar, Figure, Outcome

RUNS = 5
MORE_RUNS = 10
LONG_RUN_SECONDS = 5.0
MOST_GROWTH = 16.0
LEAST_ARCS_FOR_BAR = 10000

ARCS = [1000, 10000, 100000, 1000000]
KINDS = ["chain", "ladder", "grid", "random"]
KINDS_WITH_BAR = ["chain", "ladder"]


class Run(NamedTuple):
    """What one run of the program took and printed."""

    processor_seconds: float
    printed: str


class Measured(NamedTuple):
    """A network, with the runs that only built it and those that solved it too."""

    kind: str
    arcs: int
    built: list[Run]
    solved: list[Run]
    phases: str

    def title(self) -> str:
        return f"{self.kind} {self.arcs}"

    def build_seconds(self) -> float:
        return least_time(self.built)

    def solve_seconds(self) -> float:
        """The time of the work alone. It is above 0, also where it is too short to be seen."""
        return max(least_time(self.solved) - self.build_seconds(), 1e-6)


def least_time(runs: list[Run]) -> float:
    return min(run.processor_seconds for run in runs)


def run_once(program: Path, words: list[str]) -> Run:
    """Runs the program, and gives what it took and printed."""
    with tempfile.TemporaryDirectory(prefix="mcpre-bench-") as name:
        output = Path(name) / "out"
        run = measure.run_once([str(program), *words], Path(name) / "errors", output)
        return Run(run.processor_seconds, output.read_text())


def run_more(program: Path, measured: Measured, count: int) -> None:
    """Adds so many runs of each of the two works, by turns."""
    for _ in range(count):
        if measured.solved and least_time(measured.solved) > LONG_RUN_SECONDS:
            return
        measured.built.append(run_once(program, [measured.kind, str(measured.arcs), "build"]))
        measured.solved.append(run_once(program, [measured.kind, str(measured.arcs), "solve"]))


def growth_of(fewer: Measured, more: Measured) -> float:
    return more.solve_seconds() / fewer.solve_seconds()


def has_bar(fewer: Measured) -> bool:
    return fewer.kind in KINDS_WITH_BAR and fewer.arcs >= LEAST_ARCS_FOR_BAR


def print_head() -> None:
    print(f"{'network':<18}{'runs':>6}{'building':>10}{'solving':>10}{'us/arc':>9}{'growth':>8}  printed")


def print_row(measured: Measured, fewer: Measured | None) -> None:
    growth_shown = "" if fewer is None else f"{growth_of(fewer, measured):.1f}"
    lines = (measured.solved[0].printed + measured.phases).splitlines()
    print(
        f"{measured.title():<18}{len(measured.solved):>6}{measured.build_seconds():>10.3f}"
        f"{measured.solve_seconds():>10.3f}{measured.solve_seconds() / measured.arcs * 1e6:>9.3f}{growth_shown:>8}"
        f"  {', '.join(lines)}",
        flush=True,
    )


def measure_kind(program: Path, kind: str) -> list[Measured]:
    """Prints the lines of a kind, and gives what was measured for each number of arcs."""
    found: list[Measured] = []
    for arcs in ARCS:
        phases = run_once(program, [kind, str(arcs), "phases"]).printed.splitlines()[-1]
        measured = Measured(kind, arcs, [], [], phases)
        fewer = found[-1] if found else None
        run_more(program, measured, RUNS)
        for _ in range(MORE_RUNS):
            if fewer is None or not has_bar(fewer) or growth_of(fewer, measured) <= MOST_GROWTH:
                break
            run_more(program, fewer, 1)
            run_more(program, measured, 1)
        print_row(measured, fewer)
        found.append(measured)
    return found


def figures_of(found: list[Measured]) -> list[Figure]:
    return [
        Figure(
            f"flow, {more.title()} arcs",
            more.solve_seconds(),
            f"{more.solve_seconds() / more.arcs * 1e6:.2f} us/arc, {more.phases}",
            growth=None if fewer is None else growth_of(fewer, more),
            than=None if fewer is None else fewer.title(),
        )
        for fewer, more in zip([None, *found], found)
    ]


def bars_of(found: list[Measured]) -> list[Bar]:
    bars = []
    for fewer, more in zip(found, found[1:]):
        if has_bar(fewer):
            growth = growth_of(fewer, more)
            bar = f"{more.title()}: at most {MOST_GROWTH:.0f} times {fewer.title()} ({growth:.1f})"
            bars.append(Bar(growth <= MOST_GROWTH, bar))
    return bars


def measure_all(program: Path) -> Outcome:
    print_head()
    measured = [measure_kind(program, kind) for kind in KINDS]
    figures = [figure for found in measured for figure in figures_of(found)]
    return Outcome(figures, [bar for found in measured for bar in bars_of(found)])


if __name__ == "__main__":
    measure.run_script("Measures the time of maximum flows and their cuts.", measure.FLOW_TIMES, measure_all)
