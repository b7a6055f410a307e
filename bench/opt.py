"""Measures the time and the memory of `mcpre opt`, beside LLVM's `opt`, and how its time grows.

    python3 bench/opt.py [--program PROGRAM]

PROGRAM is the built program, crates/mcpre/out/mcpre if none is given. Four families of modules are measured, each with a
profile that it accepts:

- Rounds: a `main` of so many rounds of four blocks, in each of which an addition stands in one of two arms and again
  where they meet. What is added to comes from the input, so that no value is known before the run. The bars are on
  these.
- Expressions: a `main` of one block with so many expressions that differ in a constant, each computed twice. No bar is
  set on them: they are shown to see how the time grows with the number of expressions of one function.
- Addends: 500 rounds with so many different addends, so that many blocks meet many expressions. No bar is set on them
  either: each expression has a network of all blocks, so the time of a pair of block and expression is shown.
- Divisions: rounds with a division in place of the addition, by one of seven variables that come from the input. A
  division may trap, so lazy code motion places it. No bar is set on them.

On each also `opt-19 -S -passes=mem2reg,gvn` is run, by turns with the program, where it is installed. The bars:

- The program takes no more processor time than opt-19, where that is installed.
- Twice the rounds take at most 2.3 times the time.
- The peak of memory is at most 40 for each byte of the module's text and of the certificate together, for texts of 2^20
  bytes and more. A peak is never shown below this script's own, some 10 MiB, so it says little of shorter texts.

The processor time is that of the program and of the system for it, with reading and writing of the files; of several
runs the one that used the least counts. It still swings where other work shares the machine, so there are more runs
where a bar is missed by the first ones. Each run must end with status 0 and leave a certificate, and where opt-19 is
installed it must accept the module that was written.

The status is 0 where no bar is missed, 1 where one is, and 2 where something could not be measured. Nothing is
installed: where opt-19 (of Debian's package llvm-19) is missing, the script says so, and its bar is left out. The files
are made in a temporary folder, which is removed. Linux alone.
"""

import tempfile
from pathlib import Path
from typing import Callable, NamedTuple

import measure
from measure import Bar, Figure, Outcome, Run, give_up, growth_of, least, run_once

RUNS = 3
MORE_RUNS = 12
MOST_GROWTH = 2.3
MOST_MEMORY = 40.0
LEAST_TEXT_FOR_MEMORY = 1 << 20

# 5000 is there as the half of 10000.
ROUNDS = [1000, 2000, 4000, 5000, 10000]
EXPRESSIONS = [500, 1000, 2000, 4000]
ADDENDS = [10, 20, 40, 80]
ADDED_ROUNDS = 500
DIVISIONS = [1000, 2000, 4000]
HEAD = "declare i32 @getchar()\n\ndefine i32 @main() {\nentry:\n"


class Made(NamedTuple):
    """The text of a module, and that of its profile."""

    module: str
    profile: str


class Family(NamedTuple):
    """Modules that grow in one way, each made of its size, which counts `unit`."""

    unit: str
    sizes: list[int]
    make: Callable[[int], Made]
    # How many pairs of a block and an expression there are.
    pairs: Callable[[int], int]
    has_bars: bool


class Files(NamedTuple):
    """The files of a module in a folder."""

    title: str
    module: Path
    profile: Path
    output: Path
    certificate: Path
    # The bytes of the module's text.
    length: int
    pairs: int


class Measured(NamedTuple):
    """What the program's runs took on a module, and what those of opt took where it is there."""

    files: Files
    runs: list[Run]
    opt_runs: list[Run]

    def best(self) -> Run:
        return least(self.runs)

    def share_of_opt(self) -> float | None:
        """How much of opt's time the program took."""
        if not self.opt_runs:
            return None
        return self.best().processor_seconds / least(self.opt_runs).processor_seconds

    def peak_of_byte(self) -> float:
        return self.best().peak_bytes / (self.files.length + self.files.certificate.stat().st_size)


# ---- modules


def sum_with(front: str, number: int, addends: int) -> str:
    """What is left of `a` is a sum of it and one of so many constants."""
    return f"  %{front}{number}.v = add i32 %{front}{number}.a, {number % addends}\n"


def quotient_by(front: str, number: int, divisors: int) -> str:
    """What is left of `a` is its quotient by one of so many variables."""
    return (
        f"  %{front}{number}.d = load i32, ptr %d{number % divisors}\n"
        f"  %{front}{number}.v = sdiv i32 %{front}{number}.a, %{front}{number}.d\n"
    )


def round_of(number: int, value: Callable[[str, int, int], str], values: int, is_last: bool) -> str:
    """Four blocks: a value of `a` in one of two arms, and again where they meet."""
    following = "end" if is_last else f"s{number + 1}"
    return (
        f"s{number}:\n"
        f"  %s{number}.a = load i32, ptr %a\n"
        f"  %s{number}.c = icmp slt i32 %s{number}.a, 0\n"
        f"  br i1 %s{number}.c, label %l{number}, label %r{number}\n"
        f"l{number}:\n"
        f"  %l{number}.a = load i32, ptr %a\n"
        f"{value('l', number, values)}"
        f"  store i32 %l{number}.v, ptr %t\n"
        f"  br label %j{number}\n"
        f"r{number}:\n"
        f"  br label %j{number}\n"
        f"j{number}:\n"
        f"  %j{number}.a = load i32, ptr %a\n"
        f"{value('j', number, values)}"
        f"  store i32 %j{number}.v, ptr %a\n"
        f"  br label %{following}\n"
    )


def rounds_of(count: int, value: Callable[[str, int, int], str], values: int, begun: str) -> Made:
    """So many rounds one behind the other; of 100 runs some take the first arm."""
    body = "".join(round_of(number, value, values, number == count - 1) for number in range(count))
    lines = ["mcpre-profile 1", "func 0 100", "block 0 100"]
    for number in range(count):
        left = 1 + 37 * number % 99
        block = 1 + 4 * number
        lines += [
            f"block {block} {left} {100 - left}",
            f"block {block + 1} {left}",
            f"block {block + 2} {100 - left}",
            f"block {block + 3} 100",
        ]
    lines.append(f"block {1 + 4 * count}")
    return Made(f"{begun}{body}end:\n  ret i32 0\n}}\n", "\n".join(lines) + "\n")


def rounds(count: int, addends: int = 7) -> Made:
    """Rounds with sums, over a byte of the input."""
    begun = (
        f"{HEAD}"
        "  %a = alloca i32\n"
        "  %t = alloca i32\n"
        "  %g = call i32 @getchar()\n"
        "  store i32 %g, ptr %a\n"
        "  br label %s0\n"
    )
    return rounds_of(count, sum_with, addends, begun)


def divisions(count: int, divisors: int = 7) -> Made:
    """Rounds with quotients, over bytes of the input."""
    variables = ["a", *(f"d{number}" for number in range(divisors))]
    allocas = "".join(f"  %{name} = alloca i32\n" for name in [*variables, "t"])
    stores = "".join(f"  %{name}.g = call i32 @getchar()\n  store i32 %{name}.g, ptr %{name}\n" for name in variables)
    return rounds_of(count, quotient_by, divisors, f"{HEAD}{allocas}{stores}  br label %s0\n")


def expressions(count: int) -> Made:
    """A block with a sum of the input and each of so many constants, each computed twice."""
    body = "".join(
        f"  %{front}{number}.a = load i32, ptr %a\n"
        f"  %{front}{number}.v = add i32 %{front}{number}.a, {number}\n"
        f"  store i32 %{front}{number}.v, ptr %t\n"
        for front in ("x", "y")
        for number in range(count)
    )
    begun = (
        f"{HEAD}"
        "  %a = alloca i32\n"
        "  %t = alloca i32\n"
        "  %g = call i32 @getchar()\n"
        "  store i32 %g, ptr %a\n"
    )
    return Made(f"{begun}{body}  ret i32 0\n}}\n", "mcpre-profile 1\nfunc 0 100\nblock 0\n")


def blocks_of(count: int) -> int:
    """How many blocks so many rounds have."""
    return 4 * count + 2


FAMILIES = [
    Family("rounds", ROUNDS, rounds, lambda count: blocks_of(count) * 8, True),
    Family("expressions", EXPRESSIONS, expressions, lambda count: count, False),
    Family(
        "addends",
        ADDENDS,
        lambda addends: rounds(ADDED_ROUNDS, addends),
        lambda addends: blocks_of(ADDED_ROUNDS) * (addends + 1),
        False,
    ),
    Family("divisions", DIVISIONS, divisions, lambda count: blocks_of(count) * 8, False),
]


# ---- runs


def make_files(folder: Path, family: Family, size: int) -> Files:
    made = family.make(size)
    stem = folder / f"{family.unit}-{size}"
    files = Files(
        f"{size} {family.unit}",
        stem.with_suffix(".ll"),
        stem.with_suffix(".prof"),
        stem.with_suffix(".optimised"),
        stem.with_suffix(".json"),
        len(made.module.encode()),
        family.pairs(size),
    )
    files.module.write_text(made.module)
    files.profile.write_text(made.profile)
    return files


def run_program(program: Path, files: Files) -> Run:
    """Runs the program on a module, and gives up where it leaves other files than it must."""
    files.output.unlink(missing_ok=True)
    files.certificate.unlink(missing_ok=True)
    names = [str(files.module), str(files.profile), str(files.output), str(files.certificate)]
    run = run_once([str(program), "opt", *names], files.module.with_suffix(".errors"))
    if not files.output.is_file():
        give_up(f"the program wrote no module for {files.title}")
    if not files.certificate.is_file():
        give_up(f"the program wrote no certificate for {files.title}")
    return run


def run_opt(opt: str, files: Files) -> Run:
    words = [opt, "-S", "-passes=mem2reg,gvn", str(files.module), "-o", str(files.output)]
    return run_once(words, files.module.with_suffix(".errors"))


def check_output(opt: str, files: Files) -> None:
    """Gives up where LLVM doesn't accept the module that the program wrote."""
    run_once([opt, "-passes=verify", "-disable-output", str(files.output)], files.module.with_suffix(".errors"))


def run_more(program: Path, opt: str | None, measured: Measured, count: int) -> None:
    """Adds so many runs of the program, by turns with opt where it is there."""
    for _ in range(count):
        measured.runs.append(run_program(program, measured.files))
        if opt is not None:
            measured.opt_runs.append(run_opt(opt, measured.files))


# ---- what is measured


def misses_bar(half: Measured | None, measured: Measured) -> bool:
    """Whether more runs may help."""
    share = measured.share_of_opt()
    is_slow = share is not None and share > 1
    return is_slow or (half is not None and growth_of(half.runs, measured.runs) > MOST_GROWTH)


def print_head() -> None:
    print(
        f"{'module':<20}{'bytes':>10}{'runs':>6}{'seconds':>9}{'by clock':>10}{'us/one':>9}{'us/pair':>9}"
        f"{'peak/byte':>11}{'opt-19':>9}{'of it':>7}{'growth':>8}"
    )


def print_row(measured: Measured, size: int, half: Measured | None) -> None:
    run, share = measured.best(), measured.share_of_opt()
    opt_shown = "" if share is None else f"{least(measured.opt_runs).processor_seconds:.3f}"
    share_shown = "" if share is None else f"{share:.2f}"
    growth_shown = "" if half is None else f"{growth_of(half.runs, measured.runs):.2f}"
    print(
        f"{measured.files.title:<20}{measured.files.length:>10}{len(measured.runs):>6}{run.processor_seconds:>9.3f}"
        f"{run.clock_seconds:>10.3f}{run.processor_seconds / size * 1e6:>9.1f}"
        f"{run.processor_seconds / measured.files.pairs * 1e6:>9.2f}{measured.peak_of_byte():>11.2f}"
        f"{opt_shown:>9}{share_shown:>7}{growth_shown:>8}",
        flush=True,
    )


def measure_family(program: Path, opt: str | None, folder: Path, family: Family) -> dict[int, Measured]:
    """Prints the lines of a family, and gives what was measured for each size."""
    found: dict[int, Measured] = {}
    for size in family.sizes:
        measured = Measured(make_files(folder, family, size), [], [])
        half = found.get(size // 2)
        run_more(program, opt, measured, RUNS)
        for _ in range(MORE_RUNS if family.has_bars else 0):
            if not misses_bar(half, measured):
                break
            if half is not None:
                run_more(program, opt, half, 1)
            run_more(program, opt, measured, 1)
        if opt is not None:
            run_program(program, measured.files)
            check_output(opt, measured.files)
        print_row(measured, size, half)
        found[size] = measured
    return found


def figures_of(found: dict[int, Measured]) -> list[Figure]:
    figures = []
    for size, measured in found.items():
        half, best = found.get(size // 2), measured.best()
        figures.append(Figure(
            f"opt, {measured.files.title}",
            best.processor_seconds,
            f"{best.processor_seconds / measured.files.pairs * 1e6:.2f} us/pair, {measured.peak_of_byte():.1f} B/B",
            best.peak_bytes,
            None if half is None else growth_of(half.runs, measured.runs),
            None if half is None else half.files.title,
            "opt -passes=mem2reg,gvn" if measured.opt_runs else None,
            least(measured.opt_runs).processor_seconds if measured.opt_runs else None,
        ))
    return figures


def bars_of(found: dict[int, Measured]) -> list[Bar]:
    bars = []
    for measured in found.values():
        share = measured.share_of_opt()
        if share is not None:
            bars.append(measure.bar_of_share(measured.files.title, share, "opt-19"))
    for size, measured in found.items():
        half = found.get(size // 2)
        if half is not None:
            growth = growth_of(half.runs, measured.runs)
            bars.append(measure.bar_of_growth(measured.files.title, growth, MOST_GROWTH, half.files.title))
    for measured in found.values():
        if measured.files.length >= LEAST_TEXT_FOR_MEMORY:
            bars.append(measure.bar_of_memory(measured.files.title, measured.peak_of_byte(), MOST_MEMORY))
    return bars


def measure_all(program: Path) -> Outcome:
    opt = measure.of_llvm("opt-19", "its times are left out, and so is their bar")
    with tempfile.TemporaryDirectory(prefix="mcpre-bench-") as name:
        print_head()
        measured = [measure_family(program, opt, Path(name), family) for family in FAMILIES]
        figures = [figure for found in measured for figure in figures_of(found)]
        bars = [bar for family, found in zip(FAMILIES, measured) if family.has_bars for bar in bars_of(found)]
    return Outcome(figures, bars)


if __name__ == "__main__":
    measure.run_script("Measures the time and the memory of mcpre opt.", measure.MCPRE, measure_all)
