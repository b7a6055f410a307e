"""Measures the time and the memory of `mcpre run`: steps per second, and how the time of a step grows.

    python3 bench/run.py [--program PROGRAM]

PROGRAM is the built program, crates/mcpre/out/mcpre if none is given. Four things are measured:

- Steps per second of three loops of ten million steps: of arithmetic, of calls, and of `putchar`. Beside each also
  `lli-19 -force-interpreter=true` runs the same text, by turns with the program, where it is installed. No bar is set
  on that: it is shown to compare.
- The time of a step of one loop in modules of 10, 100, 1000 and 10000 functions, and in functions of as many blocks,
  through all of which the loop goes. The last may take at most 2.5 times the time of a step of the first.
- The time of ten and of twenty million steps of one loop; the double may take at most 2.3 times the time.
- A recursion of half a million and of a million and a half frames: the memory of a frame, and at most 3.45 times the
  time for three times the frames.

The processor time is that of the program and of the system for it. What reading the text takes is measured by a run of
one step and taken off where a step is measured. Of several runs the one that used the least counts. It still swings
where other work shares the machine, so there are more runs where a bar is missed by the first ones. Each run must end
as is known: the status, the line, the bytes shown and the profile are compared.

The status is 0 where no bar is missed, 1 where one is, and 2 where something could not be measured. Nothing is
installed: where lli-19 (of Debian's package llvm-19) is missing, the script says so. The files are made in a temporary
folder, which is removed. Linux alone.
"""

import tempfile
from pathlib import Path
from typing import Callable, NamedTuple

import measure
from measure import Bar, Figure, Outcome, Run, give_up, least

RUNS = 3
MORE_RUNS = 9
MOST_GROWTH_OF_STEP = 2.5
MOST_GROWTH = 2.3
MOST_GROWTH_OF_FRAMES = 3.45

RETURNED = 0
STEP_LIMIT = 8


class Task(NamedTuple):
    """A program with what its run comes to: its steps, how many bytes it shows, each an A, and a short profile."""

    title: str
    text: str
    steps: int
    shown: int
    profile: str | None


class Measured(NamedTuple):
    """A task with the program's best run, the best run of its first step alone, and the seconds of lli, if it ran."""

    task: Task
    run: Run
    start: Run
    lli_seconds: float | None

    def seconds(self) -> float:
        """The processor time of the steps, without what comes before them."""
        return max(self.run.processor_seconds - self.start.processor_seconds, 1e-6)

    def nanoseconds_of_step(self) -> float:
        return self.seconds() / self.task.steps * 1e9


# ---- programs


def arithmetic(rounds: int) -> Task:
    """A loop of ten steps a round, over a variable."""
    text = (
        "define i32 @main() {\n"
        "entry:\n"
        "  %i = alloca i32\n"
        "  %s = alloca i32\n"
        "  store i32 0, ptr %i\n"
        "  store i32 0, ptr %s\n"
        "  br label %head\n"
        "head:\n"
        "  %i1 = load i32, ptr %i\n"
        "  %s1 = load i32, ptr %s\n"
        "  %m = mul i32 %i1, 3\n"
        "  %x = xor i32 %s1, %m\n"
        "  %d = udiv i32 %x, 2\n"
        "  store i32 %d, ptr %s\n"
        "  %n = add i32 %i1, 1\n"
        "  store i32 %n, ptr %i\n"
        f"  %c = icmp ult i32 %n, {rounds}\n"
        "  br i1 %c, label %head, label %end\n"
        "end:\n"
        "  ret i32 0\n"
        "}\n"
    )
    profile = f"mcpre-profile 1\nfunc 0 1\nblock 0 1\nblock 1 {rounds - 1} 1\nblock 2\n"
    return Task("arithmetic", text, 3 + 10 * rounds + 1, 0, profile)


def calls(rounds: int) -> Task:
    """A loop of eight steps a round, three of which are those of a call."""
    text = (
        "define i32 @next(i32 %i) {\n"
        "entry:\n"
        "  %n = add i32 %i, 1\n"
        "  ret i32 %n\n"
        "}\n\n"
        "define i32 @main() {\n"
        "entry:\n"
        "  %i = alloca i32\n"
        "  store i32 0, ptr %i\n"
        "  br label %head\n"
        "head:\n"
        "  %i1 = load i32, ptr %i\n"
        "  %n = call i32 @next(i32 %i1)\n"
        "  store i32 %n, ptr %i\n"
        "  %m = sub i32 %n, 1\n"
        f"  %c = icmp ult i32 %n, {rounds}\n"
        "  br i1 %c, label %head, label %end\n"
        "end:\n"
        "  ret i32 0\n"
        "}\n"
    )
    profile = f"mcpre-profile 1\nfunc 0 {rounds}\nblock 0\nfunc 1 1\nblock 0 1\nblock 1 {rounds - 1} 1\nblock 2\n"
    return Task("calls", text, 2 + 8 * rounds + 1, 0, profile)


def shows(rounds: int) -> Task:
    """A loop of six steps a round, one of which shows a byte."""
    text = (
        "declare i32 @putchar(i32)\n\n"
        "define i32 @main() {\n"
        "entry:\n"
        "  %i = alloca i32\n"
        "  store i32 0, ptr %i\n"
        "  br label %head\n"
        "head:\n"
        "  %i1 = load i32, ptr %i\n"
        "  %p = call i32 @putchar(i32 65)\n"
        "  %n = add i32 %i1, 1\n"
        "  store i32 %n, ptr %i\n"
        f"  %c = icmp ult i32 %n, {rounds}\n"
        "  br i1 %c, label %head, label %end\n"
        "end:\n"
        "  ret i32 0\n"
        "}\n"
    )
    profile = f"mcpre-profile 1\nfunc 0 1\nblock 0 1\nblock 1 {rounds - 1} 1\nblock 2\n"
    return Task("putchar", text, 2 + 6 * rounds + 1, rounds, profile)


def round_trip(rounds: int) -> str:
    """A `main` that calls `@f0` so many times; three steps before the loop, six a round beside those of the call."""
    return (
        "define i32 @main() {\n"
        "entry:\n"
        "  %i = alloca i32\n"
        "  store i32 0, ptr %i\n"
        "  br label %head\n"
        "head:\n"
        "  call void @f0()\n"
        "  %i1 = load i32, ptr %i\n"
        "  %n = add i32 %i1, 1\n"
        "  store i32 %n, ptr %i\n"
        f"  %c = icmp ult i32 %n, {rounds}\n"
        "  br i1 %c, label %head, label %end\n"
        "end:\n"
        "  ret i32 0\n"
        "}\n"
    )


def functions(count: int, calls_of_all: int) -> Task:
    """Functions each of which calls the next, `calls_of_all` calls together."""
    rounds = calls_of_all // count
    chain = "".join(
        f"define void @f{place}() {{\n"
        "entry:\n"
        + (f"  call void @f{place + 1}()\n" if place + 1 < count else "")
        + "  ret void\n"
        "}\n\n"
        for place in range(count)
    )
    steps = 2 + rounds * (6 + 2 * count - 1) + 1
    return Task(f"{count} functions", chain + round_trip(rounds), steps, 0, None)


def blocks(count: int, jumps: int) -> Task:
    """A function of blocks each of which jumps to the next, `jumps` jumps together."""
    rounds = jumps // count
    chain = "".join(f"b{place}:\n  br label %b{place + 1}\n" for place in range(count - 1))
    function = f"define void @f0() {{\n{chain}b{count - 1}:\n  ret void\n}}\n\n"
    steps = 2 + rounds * (6 + count) + 1
    return Task(f"{count} blocks", function + round_trip(rounds), steps, 0, None)


def recursion(frames: int) -> Task:
    """A function that calls itself until its argument is 0; six steps a frame, and three in the last one."""
    text = (
        "define i32 @down(i32 %n) {\n"
        "entry:\n"
        "  %c = icmp eq i32 %n, 0\n"
        "  br i1 %c, label %last, label %more\n"
        "last:\n"
        "  ret i32 0\n"
        "more:\n"
        "  %m = sub i32 %n, 1\n"
        "  %r = call i32 @down(i32 %m)\n"
        "  %s = add i32 %r, 1\n"
        "  ret i32 0\n"
        "}\n\n"
        "define i32 @main() {\n"
        "entry:\n"
        f"  %r = call i32 @down(i32 {frames - 1})\n"
        "  ret i32 0\n"
        "}\n"
    )
    profile = f"mcpre-profile 1\nfunc 0 {frames}\nblock 0 1 {frames - 1}\nblock 1\nblock 2\nfunc 1 1\nblock 0\n"
    return Task(f"{frames} frames", text, 6 * (frames - 1) + 3 + 2, 0, profile)


LOOPS = [arithmetic(1_000_000), calls(1_250_000), shows(1_666_667)]
SIZES = [10, 100, 1000, 10000]


def many_functions(count: int) -> Task:
    return functions(count, 2_000_000)


def many_blocks(count: int) -> Task:
    return blocks(count, 4_000_000)


FAMILIES = [many_functions, many_blocks]
FEWER_FRAMES = 500_000
MORE_FRAMES = 1_500_000


# ---- runs


def run_in(words: list[str], folder: Path) -> tuple[int, Run]:
    """Runs a program without input, and gives its status and what it took. What it put is in two files."""
    return measure.run_any(words, folder / "errors", folder / "out")


def expect(task: Task, what: str, found: object, wanted: object) -> None:
    if found != wanted:
        give_up(f"{task.title}: {what} is {str(found)[:200]!r} in place of {str(wanted)[:200]!r}")


def run_program(program: Path, folder: Path, task: Task, steps: int) -> Run:
    """Runs the program for at most so many steps, and gives up where it ends otherwise than it must."""
    profile = folder / "a.prof"
    profile.unlink(missing_ok=True)
    status, run = run_in([str(program), "run", str(steps), str(folder / "a.ll"), str(profile)], folder)
    told = (folder / "errors").read_text(errors="replace")
    if steps < task.steps:
        expect(task, "the status", status, STEP_LIMIT)
        expect(task, "the line", told, f"mcpre: step limit {steps}\n")
        return run
    expect(task, "the line", told, "mcpre: main returned 0\n")
    expect(task, "the status", status, RETURNED)
    expect(task, "what is shown", (folder / "out").read_bytes(), b"A" * task.shown)
    if task.profile is not None:
        expect(task, "the profile", profile.read_text(), task.profile)
    return run


def run_lli(lli: str, folder: Path, task: Task) -> Run:
    status, run = run_in([lli, "-force-interpreter=true", str(folder / "a.ll")], folder)
    expect(task, "the status of lli", status, 0)
    expect(task, "what lli shows", (folder / "out").read_bytes(), b"A" * task.shown)
    return run


def measure_task(program: Path, lli: str | None, folder: Path, task: Task, runs: int) -> Measured:
    (folder / "a.ll").write_text(task.text)
    run_program(program, folder, task, task.steps - 1)
    starts, whole, of_lli = [], [], []
    for _ in range(runs):
        starts.append(run_program(program, folder, task, 1))
        whole.append(run_program(program, folder, task, task.steps))
        if lli is not None:
            of_lli.append(run_lli(lli, folder, task))
    lli_seconds = least(of_lli).processor_seconds if of_lli else None
    return Measured(task, least(whole), least(starts), lli_seconds)


# ---- what is measured


def print_head() -> None:
    print(
        f"{'program':<20}{'steps':>10}{'start':>9}{'seconds':>9}{'by clock':>10}{'steps/s':>12}{'ns/step':>9}"
        f"{'peak MiB':>10}{'lli-19':>9}"
    )


def print_row(measured: Measured) -> None:
    task, run, start, lli_seconds = measured
    lli_shown = "" if lli_seconds is None else f"{lli_seconds:.3f}"
    print(
        f"{task.title:<20}{task.steps:>10}{start.processor_seconds:>9.3f}{run.processor_seconds:>9.3f}"
        f"{run.clock_seconds:>10.3f}{task.steps / measured.seconds():>12.0f}{measured.nanoseconds_of_step():>9.1f}"
        f"{run.peak_bytes / 2**20:>10.1f}{lli_shown:>9}",
        flush=True,
    )


class Growth(NamedTuple):
    """Two tasks, what of a run is compared, and by how much it may grow from the first to the second."""

    title: str
    small: Task
    large: Task
    taken: Callable[[Measured], float]
    most: float


GROWTHS = [
    Growth(
        f"a step among {SIZES[-1]} functions: at most {MOST_GROWTH_OF_STEP} times that among {SIZES[0]}",
        many_functions(SIZES[0]),
        many_functions(SIZES[-1]),
        Measured.nanoseconds_of_step,
        MOST_GROWTH_OF_STEP,
    ),
    Growth(
        f"a step among {SIZES[-1]} blocks: at most {MOST_GROWTH_OF_STEP} times that among {SIZES[0]}",
        many_blocks(SIZES[0]),
        many_blocks(SIZES[-1]),
        Measured.nanoseconds_of_step,
        MOST_GROWTH_OF_STEP,
    ),
    Growth(
        f"twenty million steps: at most {MOST_GROWTH} times the time of ten million",
        arithmetic(1_000_000),
        arithmetic(2_000_000),
        Measured.seconds,
        MOST_GROWTH,
    ),
    Growth(
        f"{MORE_FRAMES} frames: at most {MOST_GROWTH_OF_FRAMES} times the time of {FEWER_FRAMES}",
        recursion(FEWER_FRAMES),
        recursion(MORE_FRAMES),
        Measured.seconds,
        MOST_GROWTH_OF_FRAMES,
    ),
]


def measure_growth(program: Path, folder: Path, bar: Growth) -> tuple[Measured, Measured, float]:
    """Prints the lines of both tasks, and gives the growth; with more runs where the first ones miss the bar."""
    for runs in (RUNS, MORE_RUNS):
        small = measure_task(program, None, folder, bar.small, runs)
        large = measure_task(program, None, folder, bar.large, runs)
        growth = bar.taken(large) / bar.taken(small)
        if growth <= bar.most:
            break
    print_row(small)
    print_row(large)
    return small, large, growth


def figure_of(measured: Measured) -> Figure:
    task = measured.task
    return Figure(
        f"run, {task.title}, {task.steps} steps",
        measured.run.processor_seconds,
        f"{task.steps / measured.seconds() / 1e6:.1f} million steps/s",
        measured.run.peak_bytes,
        beside=None if measured.lli_seconds is None else "lli -force-interpreter",
        beside_seconds=measured.lli_seconds,
    )


def measure_in(program: Path, lli: str | None, folder: Path) -> Outcome:
    """Prints the lines, and gives what was measured."""
    alone = []
    for task in LOOPS:
        alone.append(measure_task(program, lli, folder, task, RUNS))
        print_row(alone[-1])
    for make in FAMILIES:
        for count in SIZES[1:-1]:
            alone.append(measure_task(program, None, folder, make(count), RUNS))
            print_row(alone[-1])
    judged = [(bar, *measure_growth(program, folder, bar)) for bar in GROWTHS]
    fewer, more = judged[-1][1:3]
    of_frame = (more.run.peak_bytes - fewer.run.peak_bytes) / (MORE_FRAMES - FEWER_FRAMES)
    print(f"a frame of the recursion takes {of_frame:.0f} bytes of memory at the peak")
    figures = [figure_of(measured) for measured in alone]
    for bar, small, large, growth in judged:
        than = f"{small.task.title}, {small.task.steps} steps"
        figures += [figure_of(small), figure_of(large)._replace(growth=growth, than=than)]
    return Outcome(figures, [Bar(growth <= bar.most, f"{bar.title} ({growth:.2f})") for bar, _, _, growth in judged])


def measure_all(program: Path) -> Outcome:
    lli = measure.of_llvm("lli-19", "its times are left out")
    with tempfile.TemporaryDirectory(prefix="mcpre-bench-") as name:
        print_head()
        return measure_in(program, lli, Path(name))


if __name__ == "__main__":
    measure.run_script("Measures the time and the memory of mcpre run.", measure.MCPRE, measure_all)
