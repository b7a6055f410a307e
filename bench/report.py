"""Measures the time and the memory of `mcpre self` and `mcpre report`, and how their time grows.

    python3 bench/report.py [--program PROGRAM]

PROGRAM is the built program, crates/mcpre/out/mcpre if none is given. `self N` makes a module of N rounds of four blocks
and its profile, optimises it in memory, and puts a summary. `report` is given the same module and profile in files. The
modules are those of bench/print.py, with the profiles of bench/opt.py. Beside each also
`opt-19 -passes=mem2reg,gvn -disable-output` is run on the module, by turns with the program, where it is installed; that
is shown to compare. What `self` and `report` put is compared with what the rounds come to. The bar, for both:

- Twice the rounds take at most 2.3 times the time.

Of several runs the one that used the least processor time counts, with more runs where the bar is missed by the first
ones. A peak of memory is never shown below this script's own, some 30 MiB. The status is 0 where no bar is missed, 1
where one is, and 2 where something could not be measured. The files are made in a temporary folder, which is removed.
Linux alone.
"""

import tempfile
from pathlib import Path
from typing import Callable, NamedTuple

import measure
import opt
import print as printing
from measure import Bar, Figure, Outcome, Run, give_up, growth_of, least

RUNS = 3
MORE_RUNS = 12
MOST_GROWTH = 2.3
ADDENDS = 7
BLOCKS_OF_ROUND = 4


class Given(NamedTuple):
    """So many rounds, with the files of their module and profile."""

    rounds: int
    module: Path
    profile: Path


class Command(NamedTuple):
    """A command of the program, the words that it is given, and what it must put."""

    name: str
    words: Callable[[Given], list[str]]
    wanted: Callable[[int], str]


class Measured(NamedTuple):
    """What the runs of a command on so many rounds took, and those of opt where it is there."""

    command: Command
    given: Given
    runs: list[Run]
    opt_runs: list[Run]

    def title(self) -> str:
        return f"{self.command.name}, {self.given.rounds} rounds"

    def seconds(self) -> float:
        return least(self.runs).processor_seconds


# ---- what the rounds come to


def left_of(number: int) -> int:
    """How often the left arm of a round is taken, of 100 times."""
    return 1 + 37 * number % 99


def computations(numbers: range) -> int:
    """How often the sums of these rounds are computed: in the left arm, and each time where the arms meet."""
    return sum(left_of(number) + 100 for number in numbers)


def summary_of(rounds: int) -> str:
    """In each round the sum of the left arm is kept, and inserted in the right one; the condition stays as it is."""
    before = 100 * rounds + computations(range(rounds))
    return (
        f"self {rounds}\n"
        f"blocks {BLOCKS_OF_ROUND * rounds + 2}\n"
        f"expressions {1 + min(rounds, ADDENDS)}\n"
        f"computations {before} -> {200 * rounds}\n"
        f"inserted {rounds} kept {2 * rounds} deleted {rounds}\n"
    )


def report_of(rounds: int) -> str:
    lines = ["function @main"]
    total = 100 * rounds
    lines.append(f"0 icmp slt i32 %a, 0: {total} -> {total}, inserted 0, kept {rounds}, deleted 0")
    for addend in range(min(rounds, ADDENDS)):
        numbers = range(addend, rounds, ADDENDS)
        before, count = computations(numbers), len(numbers)
        counts = f"inserted {count}, kept {count}, deleted {count}"
        lines.append(f"{addend + 1} add i32 %a, {addend}: {before} -> {100 * count}, {counts}")
        total += before
    lines.append(f"total {total} -> {200 * rounds}")
    return "\n".join(lines) + "\n"


COMMANDS = [
    Command("self", lambda given: [str(given.rounds)], summary_of),
    Command("report", lambda given: [str(given.module), str(given.profile)], report_of),
]


# ---- runs


def make_files(folder: Path, rounds: int) -> Given:
    given = Given(rounds, folder / f"{rounds}.ll", folder / f"{rounds}.prof")
    given.module.write_bytes(printing.rounds("main", rounds))
    given.profile.write_text(opt.rounds(rounds).profile)
    return given


def run_program(program: Path, folder: Path, measured: Measured) -> Run:
    """Runs the program, and gives up where it puts something else than it must."""
    command, given = measured.command, measured.given
    run = measure.run_once([str(program), command.name, *command.words(given)], folder / "errors", folder / "out")
    if (folder / "out").read_text(errors="replace") != command.wanted(given.rounds):
        give_up(f"{measured.title()}: the program put something else than what the rounds come to")
    return run


def run_more(program: Path, llvm: str | None, folder: Path, measured: Measured, count: int) -> None:
    """Adds so many runs of the program, by turns with opt where it is there."""
    for _ in range(count):
        measured.runs.append(run_program(program, folder, measured))
        if llvm is not None:
            words = [llvm, "-passes=mem2reg,gvn", "-disable-output", str(measured.given.module)]
            measured.opt_runs.append(measure.run_once(words, folder / "errors"))


def print_row(measured: Measured, half: Measured | None) -> None:
    best = least(measured.runs)
    opt_shown = f"{least(measured.opt_runs).processor_seconds:.3f}" if measured.opt_runs else ""
    growth_shown = "" if half is None else f"{growth_of(half.runs, measured.runs):.2f}"
    print(
        f"{measured.title():<24}{len(measured.runs):>6}{best.processor_seconds:>9.3f}{best.clock_seconds:>10.3f}"
        f"{best.processor_seconds / measured.given.rounds * 1e6:>10.1f}{best.peak_bytes / 2**20:>10.1f}{opt_shown:>9}"
        f"{growth_shown:>8}",
        flush=True,
    )


def measure_command(program: Path, llvm: str | None, folder: Path, command: Command) -> dict[int, Measured]:
    """Prints the lines of a command, and gives what was measured for each number of rounds."""
    found: dict[int, Measured] = {}
    for rounds in opt.ROUNDS:
        measured = Measured(command, make_files(folder, rounds), [], [])
        half = found.get(rounds // 2)
        run_more(program, llvm, folder, measured, RUNS)
        for _ in range(MORE_RUNS):
            if half is None or growth_of(half.runs, measured.runs) <= MOST_GROWTH:
                break
            run_more(program, llvm, folder, half, 1)
            run_more(program, llvm, folder, measured, 1)
        print_row(measured, half)
        found[rounds] = measured
    return found


# ---- what is told


def figure_of(measured: Measured, half: Measured | None) -> Figure:
    return Figure(
        measured.title(),
        measured.seconds(),
        f"{measured.seconds() / measured.given.rounds * 1e6:.1f} us/round",
        least(measured.runs).peak_bytes,
        None if half is None else growth_of(half.runs, measured.runs),
        None if half is None else f"{half.given.rounds} rounds",
        "opt -passes=mem2reg,gvn" if measured.opt_runs else None,
        least(measured.opt_runs).processor_seconds if measured.opt_runs else None,
    )


def bar_of(measured: Measured, half: Measured) -> Bar:
    growth = growth_of(half.runs, measured.runs)
    return measure.bar_of_growth(measured.title(), growth, MOST_GROWTH, f"{half.given.rounds} rounds")


def measure_all(program: Path) -> Outcome:
    llvm = measure.of_llvm("opt-19", "its times are left out")
    figures, bars = [], []
    with tempfile.TemporaryDirectory(prefix="mcpre-bench-") as name:
        print(f"{'command':<24}{'runs':>6}{'seconds':>9}{'by clock':>10}{'us/round':>10}{'peak MiB':>10}{'opt-19':>9}{'growth':>8}")
        for command in COMMANDS:
            found = measure_command(program, llvm, Path(name), command)
            for rounds, measured in found.items():
                half = found.get(rounds // 2)
                figures.append(figure_of(measured, half))
                if half is not None:
                    bars.append(bar_of(measured, half))
    return Outcome(figures, bars)


if __name__ == "__main__":
    measure.run_script("Measures the time and the memory of mcpre self and report.", measure.MCPRE, measure_all)
