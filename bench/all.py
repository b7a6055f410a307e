"""Runs the scripts of this folder one after the other, and writes one table of what they measured, beside LLVM.

    python3 bench/all.py [--only NAME ..] [--table FILE] [--program PROGRAM] [--flow-program PROGRAM]

The scripts are print, run, opt, check, report and flow; NAME is one of these, and without `--only` all are run. PROGRAM is the
built program, crates/mcpre/out/mcpre and crates/flow_times/out/flow_times if none is given. What each script measures,
and its bars, its own text says.

The table is written to FILE, in Markdown, or printed at the end. It has a line for each thing that was measured:

- the processor seconds of the best run, and the peak of memory;
- what they come to: bytes, steps, arcs, or pairs of a block and an expression per second, or bytes of memory for a byte
  of the files (B/B);
- the program of LLVM that did the same on the same module, with its seconds and what part of them was taken;
- how many times longer it took than the smaller thing that is named.

Below it stand the bars that were missed, and what could not be measured. The status is 0 where no bar is missed, 1 where
one is, and 2 where a script could not measure something.
"""

import argparse
import subprocess
import sys
import tempfile
from pathlib import Path
from typing import NamedTuple

import measure
from measure import Figure, Outcome

HERE = Path(__file__).resolve().parent
# The scripts, and the program that each measures.
SCRIPTS = {
    "print": measure.MCPRE,
    "run": measure.MCPRE,
    "opt": measure.MCPRE,
    "check": measure.MCPRE,
    "report": measure.MCPRE,
    "flow": measure.FLOW_TIMES,
}
HEAD = ["measured", "seconds", "comes to", "peak, MiB", "LLVM 19", "its seconds", "part of it", "growth", "from"]


class Ended(NamedTuple):
    """A script that was run, with what it measured, if it could, and the status that it ended with."""

    name: str
    outcome: Outcome | None
    status: int


def run_script(name: str, program: Path, folder: Path) -> Ended:
    """Runs a script, in a process of its own, and gives what it measured. Its lines come as it prints them."""
    print(f"== {name}", flush=True)
    figures = folder / name
    words = [sys.executable, str(HERE / f"{name}.py"), "--program", str(program), "--figures", str(figures)]
    status = subprocess.run(words, check=False).returncode
    outcome = measure.outcome_from_json(figures.read_text()) if figures.is_file() else None
    return Ended(name, outcome, status)


def cells(figure: Figure) -> list[str]:
    """What a line of the table says of a figure."""
    share = None if figure.beside_seconds is None else figure.seconds / figure.beside_seconds
    return [
        figure.title,
        f"{figure.seconds:.3f}",
        figure.rate,
        "" if figure.peak_bytes is None else f"{figure.peak_bytes / 2**20:.1f}",
        "" if figure.beside is None else f"`{figure.beside}`",
        "" if figure.beside_seconds is None else f"{figure.beside_seconds:.3f}",
        "" if share is None else f"{share:.2f}",
        "" if figure.growth is None else f"{figure.growth:.2f}",
        "" if figure.than is None else figure.than,
    ]


def table_of(ended: list[Ended]) -> str:
    """The table, and below it the bars that were missed and the scripts that could not measure."""
    lines = [" | ".join(HEAD), " | ".join(["---"] * len(HEAD))]
    missed = []
    for name, outcome, _ in ended:
        if outcome is None:
            missed.append(f"- {name}: something could not be measured")
            continue
        lines += [" | ".join(cells(figure)) for figure in outcome.figures]
        missed += [f"- {name}: {bar.text}" for bar in outcome.bars if not bar.is_met]
    told = ["Bars that were missed:", "", *missed] if missed else ["No bar was missed."]
    return "\n".join([f"| {line} |" for line in lines] + ["", *told]) + "\n"


def status_of(ended: list[Ended]) -> int:
    """0 where each script ended with 0; else the greatest status, and none above 2."""
    return max(min(max(each.status, 0), measure.CANNOT_MEASURE) if each.outcome else measure.CANNOT_MEASURE for each in ended)


def main() -> int:
    parser = argparse.ArgumentParser(description="Runs the scripts of this folder, and writes one table.")
    parser.add_argument("--only", nargs="+", choices=list(SCRIPTS), default=list(SCRIPTS), help="the scripts to run")
    parser.add_argument("--table", type=Path, help="the file that gets the table")
    parser.add_argument("--program", type=Path, default=measure.MCPRE.path, help="the built mcpre")
    parser.add_argument("--flow-program", type=Path, default=measure.FLOW_TIMES.path, help="the built flow_times")
    words = parser.parse_args()
    programs = {measure.MCPRE: words.program, measure.FLOW_TIMES: words.flow_program}
    with tempfile.TemporaryDirectory(prefix="mcpre-bench-") as folder:
        ended = [run_script(name, programs[SCRIPTS[name]], Path(folder)) for name in words.only]
    table = table_of(ended)
    if words.table is None:
        print(table, end="")
    else:
        words.table.write_text(table)
    return status_of(ended)


if __name__ == "__main__":
    sys.exit(main())
