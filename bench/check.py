"""Measures the time and the memory of `mcpre check`, beside those of `mcpre opt` on the same module, and how its time grows.

    python3 bench/check.py [--program PROGRAM]

PROGRAM is the built program, crates/mcpre/out/mcpre if none is given. The modules are the rounds of bench/opt.py: a `main`
of so many rounds of four blocks, with its profile. `opt` writes the new module and its certificate, and `check` is given
these four files. The bars:

- `check` takes no more processor time than `opt` did.
- Twice the rounds take at most 2.3 times the time.
- The peak of memory is at most 30 for each byte of the four files together, where these are 2^20 bytes or more.

Of several runs the one that used the least processor time counts, with more runs where a bar is missed by the first ones.
Each run must end with status 0, so the checker must say yes.

The status is 0 where no bar is missed, 1 where one is, and 2 where something could not be measured. The files are made in
a temporary folder, which is removed. Linux alone.
"""

import tempfile
from pathlib import Path
from typing import NamedTuple

import measure
import opt
from measure import Bar, Figure, Outcome, Run, growth_of, least

MOST_MEMORY = 30.0


class Checked(NamedTuple):
    """What the runs of `opt` and of `check` took on a module."""

    files: opt.Files
    opt_runs: list[Run]
    runs: list[Run]
    # The bytes of the module, the profile, the new module and the certificate.
    length: int

    def best(self) -> Run:
        return least(self.runs)

    def share_of_opt(self) -> float:
        return self.best().processor_seconds / least(self.opt_runs).processor_seconds

    def peak_of_byte(self) -> float:
        return self.best().peak_bytes / self.length


def run_check(program: Path, files: opt.Files) -> Run:
    names = [str(name) for name in names_of(files)]
    return measure.run_once([str(program), "check", *names], files.module.with_suffix(".errors"))


def names_of(files: opt.Files) -> list[Path]:
    return [files.module, files.profile, files.output, files.certificate]


def run_both(program: Path, checked: Checked, count: int) -> None:
    """Adds so many runs of each command, by turns."""
    for _ in range(count):
        checked.opt_runs.append(opt.run_program(program, checked.files))
        checked.runs.append(run_check(program, checked.files))


def misses_bar(half: Checked | None, checked: Checked) -> bool:
    return checked.share_of_opt() > 1 or (half is not None and growth_of(half.runs, checked.runs) > opt.MOST_GROWTH)


def measure_rounds(program: Path, folder: Path) -> dict[int, Checked]:
    """Prints a line for each number of rounds, and gives what was measured."""
    print(f"{'module':<16}{'bytes':>11}{'runs':>6}{'check':>9}{'opt':>9}{'of it':>7}{'peak/byte':>11}{'growth':>8}")
    found: dict[int, Checked] = {}
    for size in opt.ROUNDS:
        files = opt.make_files(folder, opt.FAMILIES[0], size)
        opt.run_program(program, files)
        checked = Checked(files, [], [], sum(name.stat().st_size for name in names_of(files)))
        half = found.get(size // 2)
        run_both(program, checked, opt.RUNS)
        for _ in range(opt.MORE_RUNS):
            if not misses_bar(half, checked):
                break
            run_both(program, checked, 1)
        growth = "" if half is None else f"{growth_of(half.runs, checked.runs):.2f}"
        print(
            f"{files.title:<16}{checked.length:>11}{len(checked.runs):>6}{checked.best().processor_seconds:>9.3f}"
            f"{least(checked.opt_runs).processor_seconds:>9.3f}{checked.share_of_opt():>7.2f}"
            f"{checked.peak_of_byte():>11.2f}{growth:>8}",
            flush=True,
        )
        found[size] = checked
    return found


def figures_of(found: dict[int, Checked]) -> list[Figure]:
    figures = []
    for size, checked in found.items():
        half, best = found.get(size // 2), checked.best()
        figures.append(Figure(
            f"check, {checked.files.title}",
            best.processor_seconds,
            f"{checked.share_of_opt():.2f} of mcpre opt, {checked.peak_of_byte():.1f} B/B",
            best.peak_bytes,
            None if half is None else growth_of(half.runs, checked.runs),
            None if half is None else half.files.title,
        ))
    return figures


def bars_of(found: dict[int, Checked]) -> list[Bar]:
    bars = []
    for size, checked in found.items():
        title = checked.files.title
        bars.append(measure.bar_of_share(title, checked.share_of_opt(), "opt"))
        half = found.get(size // 2)
        if half is not None:
            growth = growth_of(half.runs, checked.runs)
            bars.append(measure.bar_of_growth(title, growth, opt.MOST_GROWTH, half.files.title))
        if checked.length >= opt.LEAST_TEXT_FOR_MEMORY:
            bars.append(measure.bar_of_memory(title, checked.peak_of_byte(), MOST_MEMORY))
    return bars


def measure_all(program: Path) -> Outcome:
    with tempfile.TemporaryDirectory(prefix="mcpre-bench-") as name:
        found = measure_rounds(program, Path(name))
        return Outcome(figures_of(found), bars_of(found))


if __name__ == "__main__":
    measure.run_script("Measures the time and the memory of mcpre check.", measure.MCPRE, measure_all)
