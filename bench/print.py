"""Measures the time and the memory of `mcpre print` on large texts, beside LLVM's `opt`, and how its time grows.

    python3 bench/print.py [--program PROGRAM]

PROGRAM is the built program, crates/mcpre/out/mcpre if none is given. Three things are measured:

- Modules of the shape of a program, with 1000, 5000 and 10000 rounds, and one of 64 MiB. On each also
  `opt-19 -S -passes=verify` is run, by turns with the program, where it is installed. The program is to take no more
  processor time than opt.
- Texts of families that grow in one way, each at half its size and at its whole size. The whole may take at most 2.3
  times the time of the half.
- The peak of memory for each byte of text, which may be at most 40 on texts of 2^20 bytes and more. A peak is never
  shown below this script's own, some 10 MiB, so it says little of shorter texts.

The processor time is that of the program and of the system for it, with reading and writing of the files; of several
runs the one that used the least counts. It still swings where other work shares the machine, so there are more runs
where a bar is missed by the first ones. Each text is canonical, so the program must print the text itself, but for the
comments, which must vanish.

The status is 0 where no bar is missed, 1 where one is, and 2 where something could not be measured. Nothing is
installed: where opt-19 (of Debian's package llvm-19) is missing, the script says so, and its bar is left out. The files
are made in a temporary folder, which is removed. Linux alone.
"""

import filecmp
import itertools
import tempfile
from pathlib import Path
from typing import Callable, Iterator, NamedTuple

import measure
from measure import Bar, Figure, Outcome, Run, give_up, growth_of, least, run_once

RUNS = 3
MORE_RUNS = 12
MOST_GROWTH = 2.3
MOST_MEMORY = 40.0
LEAST_TEXT_FOR_MEMORY = 1 << 20

TEXT_LIMIT = 1 << 26
INSTRUCTION_LIMIT = 1 << 18
BLOCK_LIMIT = 1 << 16
SLOT_LIMIT = 1 << 17
VARIABLE_LIMIT = 1 << 20

HEAD = b"define i32 @main() {\n0:\n"
SHORTEST_FUNCTION = b"define i32@main(){ret i32 0}"
SHORTEST_FUNCTION_PRINTED = HEAD + b"  ret i32 0\n}\n"


class Family(NamedTuple):
    """Texts that grow in one way: `pieces(size)` are the pieces of the text of a size that is counted in `unit`."""

    title: str
    unit: str
    whole_size: int
    pieces: Callable[[int], Iterator[bytes]]
    # What the program must print, or None where the text is canonical, so that it must print the text itself.
    printed: bytes | None = None


class Text(NamedTuple):
    """A text in a file."""

    title: str
    path: Path
    length: int
    printed: bytes | None


class Measured(NamedTuple):
    """A text with what the program's best run took on it, and what opt's did where it was run."""

    text: Text
    run: Run
    opt_seconds: float | None


# ---- texts


def round_of(number: int, is_last: bool) -> str:
    """Four blocks: an addition in one of two arms, and again where they meet."""
    addend = number % 7
    following = "end" if is_last else f"s{number + 1}"
    return (
        f"s{number}:\n"
        f"  %s{number}.a = load i32, ptr %a\n"
        f"  %s{number}.c = icmp slt i32 %s{number}.a, 0\n"
        f"  br i1 %s{number}.c, label %l{number}, label %r{number}\n"
        f"l{number}:\n"
        f"  %l{number}.a = load i32, ptr %a\n"
        f"  %l{number}.v = add i32 %l{number}.a, {addend}\n"
        f"  store i32 %l{number}.v, ptr %t\n"
        f"  br label %j{number}\n"
        f"r{number}:\n"
        f"  br label %j{number}\n"
        f"j{number}:\n"
        f"  %j{number}.a = load i32, ptr %a\n"
        f"  %j{number}.v = add i32 %j{number}.a, {addend}\n"
        f"  store i32 %j{number}.v, ptr %a\n"
        f"  br label %{following}\n"
    )


def rounds(name: str, count: int) -> bytes:
    """A function of so many rounds, one behind the other."""
    begun = (
        f"define i32 @{name}() {{\n"
        "entry:\n"
        "  %a = alloca i32\n"
        "  %t = alloca i32\n"
        "  store i32 0, ptr %a\n"
        "  br label %s0\n"
    )
    body = "".join(round_of(number, number == count - 1) for number in range(count))
    return f"{begun}{body}end:\n  ret i32 0\n}}\n".encode()


def module_of(count: int) -> Iterator[bytes]:
    yield rounds("main", count)


def longest_module(length: int) -> Iterator[bytes]:
    """Functions of 10000 rounds, and a last one with as many rounds as still fit."""
    left = length
    for place in itertools.count():
        blank = b"" if place == 0 else b"\n"
        function = blank + rounds(f"f{place:02}", 10000)
        if len(function) > left:
            break
        yield function
        left -= len(function)
    fitting = max((n for n in range(0, 10000, 10) if n * 400 < left), default=0)
    while fitting > 0 and len(rounds(f"f{place:02}", fitting)) + 1 > left:
        fitting -= 10
    if fitting > 0:
        yield b"\n" + rounds(f"f{place:02}", fitting)


def comments(size: int) -> Iterator[bytes]:
    """Lines of comments and a shortest function, of `size` bytes together."""
    line = b"; " + b"a comment is read to the end of its line".ljust(61, b".") + b"\n"
    lines, rest = divmod(size - len(SHORTEST_FUNCTION), len(line))
    yield from itertools.repeat(line, lines)
    if rest > 0:
        yield (b";" + b"." * rest)[: rest - 1] + b"\n"
    yield SHORTEST_FUNCTION


def instructions(size: int) -> Iterator[bytes]:
    """A block of `size` loads, additions and stores, over eight variables, with named and numbered results."""
    variables = ["%a", "%b", "%c", "%d", "%1", "%2", "%3", "%4"]
    yield HEAD
    for variable in variables:
        yield f"  {variable} = alloca i32\n".encode()
    number = 5
    for place in range(size // 4):
        source, target = variables[place % 8], variables[(place + 3) % 8]
        named = f"%sum.{place}"
        yield (
            f"  %{number} = load i32, ptr {source}\n"
            f"  {named} = add i32 %{number}, {place % 1000 - 500}\n"
            f"  %{number + 1} = add i32 {named}, %{number}\n"
            f"  store i32 %{number + 1}, ptr {target}\n"
        ).encode()
        number += 2
    yield b"  ret i32 0\n}\n"


def blocks(size: int) -> Iterator[bytes]:
    """`size` blocks, with names and numbers by turns, each of which goes to the next and to one far away."""
    yield b"define void @main(i1 %c) {\nentry:\n  br label %0\n"
    pairs = (size - 2) // 2
    for pair in range(pairs):
        far = f"b{(pair * 7919) % pairs}"
        following = str(pair + 1) if pair + 1 < pairs else "end"
        yield (
            f"{pair}:\n  br i1 %c, label %b{pair}, label %{far}\n"
            f"b{pair}:\n  br i1 true, label %{following}, label %{far}\n"
        ).encode()
    yield b"end:\n  ret void\n}\n"


def functions(size: int) -> Iterator[bytes]:
    """`size` functions, each of which calls one that stands behind it."""
    for place in range(size):
        blank = "" if place == 0 else "\n"
        called = (place * 7919 + 1) % size
        yield f"{blank}define void @f{place}() {{\n0:\n  call void @f{called}()\n  ret void\n}}\n".encode()


def cases(size: int) -> Iterator[bytes]:
    """A switch of `size` cases, whose values go up and down."""
    yield b"define void @main(i32 %v) {\n0:\n  switch i32 %v, label %1 [ "
    for place in range(size):
        value = place * 32749 - (1 << 31)
        yield f"i32 {value}, label %{1 + place % 2} ".encode()
    yield b"]\n1:\n  ret void\n2:\n  ret void\n}\n"


def allocas(size: int) -> Iterator[bytes]:
    """`size` variables, with names and numbers by turns."""
    yield HEAD
    for place in range(size // 2):
        yield f"  %v{place} = alloca i32\n  %{place + 1} = alloca i32\n".encode()
    yield b"  ret i32 0\n}\n"


def names(size: int) -> Iterator[bytes]:
    """`size` names of 64 bytes that differ in their last ones alone, each defined and used."""
    front = "a" * 57
    yield HEAD
    for place in range(size):
        yield f"  %{front}{place:07} = alloca i8\n".encode()
    for place in range(min(size, INSTRUCTION_LIMIT)):
        yield f"  store i8 {place % 128}, ptr %{front}{(place * 7919) % size:07}\n".encode()
    yield b"  ret i32 0\n}\n"


def long_name(size: int) -> Iterator[bytes]:
    """A variable whose name has `size` bytes, which is written three times: more would not fit into a whole text."""
    part = b"abcdefgh" * 1024
    name = [part] * (size // len(part))
    yield HEAD + b"  %"
    yield from name
    yield b" = alloca i32\n  store i32 40, ptr %"
    yield from name
    yield b"\n  %1 = load i32, ptr %"
    yield from name
    yield b"\n  ret i32 %1\n}\n"


MODULES = [
    Family("a program", "rounds", 1000, module_of),
    Family("a program", "rounds", 5000, module_of),
    Family("a program", "rounds", 10000, module_of),
    Family("functions of a program", "bytes", TEXT_LIMIT, longest_module),
]

FAMILIES = [
    Family("comments", "bytes", TEXT_LIMIT, comments, SHORTEST_FUNCTION_PRINTED),
    Family("a block", "instructions", INSTRUCTION_LIMIT, instructions),
    Family("a function", "blocks", BLOCK_LIMIT, blocks),
    Family("a module", "functions", 1 << 19, functions),
    Family("a switch", "cases", SLOT_LIMIT - 1, cases),
    Family("variables", "allocas", VARIABLE_LIMIT, allocas),
    Family("a function", "names", INSTRUCTION_LIMIT, names),
    Family("a long name", "bytes", 1 << 24, long_name),
]


# ---- runs


def check_printed(text: Text, target: Path) -> None:
    if not target.is_file():
        give_up(f"the program printed nothing for {text.title}")
    if text.printed is None:
        holds = filecmp.cmp(text.path, target, shallow=False)
    else:
        holds = target.read_bytes() == text.printed
    if not holds:
        give_up(f"the program printed {text.title} wrongly")


def make_text(folder: Path, family: Family, size: int) -> Text:
    path = folder / f"{family.unit}-{size}.ll"
    with path.open("wb") as file:
        file.writelines(family.pieces(size))
    length = path.stat().st_size
    if length > TEXT_LIMIT:
        give_up(f"{family.title} of {size} {family.unit} has {length} bytes, which is too long for a text")
    return Text(f"{family.title}, {size} {family.unit}", path, length, family.printed)


def run_program(program: Path, folder: Path, text: Text) -> Run:
    """Runs the program on a text, and gives up where it prints another text than it must."""
    target = folder / "printed.ll"
    target.unlink(missing_ok=True)
    run = run_once([str(program), "print", str(text.path), str(target)], folder / "errors")
    check_printed(text, target)
    return run


def run_opt(opt: str, folder: Path, text: Text) -> Run:
    target = folder / "printed.ll"
    return run_once([opt, "-S", "-passes=verify", str(text.path), "-o", str(target)], folder / "errors")


# ---- what is measured


def print_head() -> None:
    print(
        f"{'text':<42}{'bytes':>10}{'runs':>6}{'seconds':>9}{'by clock':>10}{'bytes/s':>12}"
        f"{'peak/byte':>11}{'opt-19':>9}{'growth':>8}"
    )


def print_row(measured: Measured, runs: int, growth: float | None) -> None:
    text, run, opt_seconds = measured
    per_second = text.length / run.processor_seconds
    opt_shown = "" if opt_seconds is None else f"{opt_seconds:.3f}"
    growth_shown = "" if growth is None else f"{growth:.2f}"
    print(
        f"{text.title:<42}{text.length:>10}{runs:>6}{run.processor_seconds:>9.3f}{run.clock_seconds:>10.3f}"
        f"{per_second:>12.0f}{run.peak_bytes / text.length:>11.2f}{opt_shown:>9}{growth_shown:>8}",
        flush=True,
    )


def measure_beside_opt(program: Path, opt: str | None, folder: Path, family: Family) -> Measured:
    """Prints the line of a text, on which opt is run by turns with the program where there is one."""
    text = make_text(folder, family, family.whole_size)
    runs, opt_runs = [], []
    for place in range(RUNS + MORE_RUNS):
        if place >= RUNS and (opt is None or is_as_fast(least(runs), least(opt_runs))):
            break
        runs.append(run_program(program, folder, text))
        if opt is not None:
            opt_runs.append(run_opt(opt, folder, text))
    opt_seconds = least(opt_runs).processor_seconds if opt_runs else None
    measured = Measured(text, least(runs), opt_seconds)
    print_row(measured, len(runs), None)
    text.path.unlink()
    return measured


def is_as_fast(run: Run, opt_run: Run) -> bool:
    return run.processor_seconds <= opt_run.processor_seconds


def measure_growth(program: Path, folder: Path, family: Family) -> tuple[Measured, float]:
    """Prints both lines of a family, and gives how many times longer the whole text takes than its half."""
    half = make_text(folder, family, family.whole_size // 2)
    whole = make_text(folder, family, family.whole_size)
    half_runs, whole_runs = [], []
    for place in range(RUNS + MORE_RUNS):
        if place >= RUNS and growth_of(half_runs, whole_runs) <= MOST_GROWTH:
            break
        half_runs.append(run_program(program, folder, half))
        whole_runs.append(run_program(program, folder, whole))
    growth = growth_of(half_runs, whole_runs)
    measured = Measured(whole, least(whole_runs), None)
    print_row(Measured(half, least(half_runs), None), len(half_runs), None)
    print_row(measured, len(whole_runs), growth)
    half.path.unlink()
    whole.path.unlink()
    return measured, growth


def figure_of(measured: Measured, growth: float | None) -> Figure:
    text, run, opt_seconds = measured
    return Figure(
        f"print, {text.title}",
        run.processor_seconds,
        f"{text.length / run.processor_seconds / 1e6:.1f} MB/s, {run.peak_bytes / text.length:.1f} B/B",
        run.peak_bytes,
        growth,
        None if growth is None else "its half",
        None if opt_seconds is None else "opt -passes=verify",
        opt_seconds,
    )


def bars_of(modules: list[Measured], families: list[tuple[Measured, float]]) -> list[Bar]:
    bars = []
    for text, run, opt_seconds in modules:
        if opt_seconds is None:
            continue
        bars.append(measure.bar_of_share(text.title, run.processor_seconds / opt_seconds, "opt-19"))
    for measured, growth in families:
        bars.append(measure.bar_of_growth(measured.text.title, growth, MOST_GROWTH, "its half"))
    for text, run, _ in modules + [measured for measured, _ in families]:
        if text.length < LEAST_TEXT_FOR_MEMORY:
            continue
        bars.append(measure.bar_of_memory(text.title, run.peak_bytes / text.length, MOST_MEMORY))
    return bars


def measure_all(program: Path) -> Outcome:
    opt = measure.of_llvm("opt-19", "its times are left out, and so is their bar")
    with tempfile.TemporaryDirectory(prefix="mcpre-bench-") as name:
        folder = Path(name)
        print_head()
        modules = [measure_beside_opt(program, opt, folder, family) for family in MODULES]
        families = [measure_growth(program, folder, family) for family in FAMILIES]
    figures = [figure_of(measured, None) for measured in modules]
    figures += [figure_of(measured, growth) for measured, growth in families]
    return Outcome(figures, bars_of(modules, families))


if __name__ == "__main__":
    measure.run_script("Measures the time and the memory of mcpre print.", measure.MCPRE, measure_all)
