"""What the scripts of this folder share: runs of a program and what they take, the words of a script, its bars, and the
figures that bench/all.py puts into one table.

Each script runs by itself, in a process of its own: a child's peak of memory is never shown below that of the process
that started it, so no script may have held more than it must.
"""

import argparse
import json
import os
import shutil
import sys
import time
from pathlib import Path
from typing import Callable, NamedTuple, NoReturn

TOP = Path(__file__).resolve().parent.parent
MISSES_BAR = 1
CANNOT_MEASURE = 2


class CannotMeasure(Exception):
    """Says why something could not be measured."""


class Built(NamedTuple):
    """A built program, with what builds it."""

    path: Path
    made_by: str


MCPRE = Built(TOP / "crates" / "mcpre" / "out" / "mcpre", "at the top of the repository, sh example.sh")
FLOW_TIMES = Built(TOP / "crates" / "flow_times" / "out" / "flow_times", "in crates/flow_times, rt run")


class Run(NamedTuple):
    """What one run of a program took."""

    processor_seconds: float
    clock_seconds: float
    peak_bytes: int


class Figure(NamedTuple):
    """A line of the table of bench/all.py. What isn't measured is None."""

    # What was done, and on what.
    title: str
    seconds: float
    # The seconds or what else was measured in a fitting unit, for example "0.3 us/arc".
    rate: str
    peak_bytes: int | None = None
    # How many times longer it took than the smaller one that `than` names.
    growth: float | None = None
    than: str | None = None
    # The program of LLVM that did the same, and its seconds.
    beside: str | None = None
    beside_seconds: float | None = None


class Bar(NamedTuple):
    """A bar, and whether it is met."""

    is_met: bool
    text: str


class Outcome(NamedTuple):
    """What a script measured."""

    figures: list[Figure]
    bars: list[Bar]


def give_up(message: str) -> NoReturn:
    raise CannotMeasure(message)


def run_any(words: list[str], errors: Path, output: Path | None = None) -> tuple[int, Run]:
    """Runs a program without input and environment, and gives its status and what it took.

    Its standard error is in the file `errors`, and its standard output in `output` or the one of this script.
    """
    flags = os.O_WRONLY | os.O_CREAT | os.O_TRUNC
    actions = [
        (os.POSIX_SPAWN_OPEN, 0, os.devnull, os.O_RDONLY, 0),
        (os.POSIX_SPAWN_OPEN, 2, str(errors), flags, 0o600),
    ]
    if output is not None:
        actions.append((os.POSIX_SPAWN_OPEN, 1, str(output), flags, 0o600))
    begun = time.perf_counter()
    child = os.posix_spawn(words[0], words, {}, file_actions=actions)
    _, status, used = os.wait4(child, 0)
    clock_seconds = time.perf_counter() - begun
    run = Run(used.ru_utime + used.ru_stime, clock_seconds, used.ru_maxrss * 1024)
    return os.waitstatus_to_exitcode(status), run


def run_once(words: list[str], errors: Path, output: Path | None = None) -> Run:
    """Runs a program, and gives what it took. It must end with status 0."""
    status, run = run_any(words, errors, output)
    if status != 0:
        told = errors.read_text(errors="replace").strip()
        give_up(f"{' '.join(words)} ended with {status}: {told}")
    return run


def least(runs: list[Run]) -> Run:
    """The run that used the least processor time."""
    return min(runs, key=lambda run: run.processor_seconds)


def growth_of(half: list[Run], whole: list[Run]) -> float:
    """How many times longer the runs on the whole took than those on its half."""
    return least(whole).processor_seconds / least(half).processor_seconds


def bar_of_share(title: str, share: float, beside: str) -> Bar:
    """Tells whether it took no more time than the program beside it."""
    return Bar(share <= 1, f"{title}: at most the time of {beside} ({share:.2f} of it)")


def bar_of_growth(title: str, growth: float, most: float, half: str) -> Bar:
    """Tells whether it took at most so many times the time of its half."""
    return Bar(growth <= most, f"{title}: at most {most} times the time of {half} ({growth:.2f})")


def bar_of_memory(title: str, peak_of_byte: float, most: float) -> Bar:
    """Tells whether the peak of memory was at most so many bytes for each byte of what was given."""
    return Bar(peak_of_byte <= most, f"{title}: at most {most:.0f} bytes of memory for a byte ({peak_of_byte:.2f})")


def of_llvm(name: str, left_out: str) -> str | None:
    """The place of a program of LLVM. Where it isn't installed, it says so and what is left out."""
    place = shutil.which(name)
    if place is None:
        print(f"{name} isn't installed (Debian's package llvm-19 has it): {left_out}")
    return place


def outcome_as_json(outcome: Outcome) -> str:
    return json.dumps({
        "figures": [figure._asdict() for figure in outcome.figures],
        "bars": [bar._asdict() for bar in outcome.bars],
    })


def outcome_from_json(text: str) -> Outcome:
    read = json.loads(text)
    return Outcome([Figure(**figure) for figure in read["figures"]], [Bar(**bar) for bar in read["bars"]])


def run_script(purpose: str, built: Built, measure: Callable[[Path], Outcome]) -> NoReturn:
    """Measures with the program that the words ask for, prints each bar, and ends with the script's status."""
    parser = argparse.ArgumentParser(description=purpose)
    parser.add_argument("--program", type=Path, default=built.path, help="the built program")
    parser.add_argument("--figures", type=Path, help="a file that gets the figures, for bench/all.py")
    words = parser.parse_args()
    try:
        if not words.program.is_file():
            give_up(f"there is no program at {words.program}: run first, {built.made_by}")
        outcome = measure(words.program.resolve())
    except CannotMeasure as reason:
        print(f"{parser.prog}: {reason}", file=sys.stderr)
        sys.exit(CANNOT_MEASURE)
    for bar in outcome.bars:
        print(f"{'yes' if bar.is_met else 'NO ':<4}{bar.text}")
    if words.figures is not None:
        words.figures.write_text(outcome_as_json(outcome))
    sys.exit(0 if all(bar.is_met for bar in outcome.bars) else MISSES_BAR)
