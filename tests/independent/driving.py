"""Runs the bench program over a script and compares what it prints with what is expected, line by line."""

import os
import subprocess
import sys
from pathlib import Path

from .bench import expected

ROOT = Path(__file__).resolve().parents[2]
BENCH = Path(os.environ.get("BENCH", ROOT / "crates" / "bench" / "out" / "bench"))


def fail(message):
    print(message)
    sys.exit(1)


def shortened(text, most=300):
    return text if len(text) <= most else f"{text[:most]}.. ({len(text)} characters)"


def run(script):
    """The bench program's status, standard output and standard error for the lines of a script."""
    if not BENCH.is_file():
        fail(f"{BENCH} is not there: `./run` builds it")
    text = "".join(line + "\n" for line in script)
    ended = subprocess.run([str(BENCH)], input=text.encode(), capture_output=True, timeout=120)
    return ended.returncode, ended.stdout.decode().splitlines(), ended.stderr.decode()


def compare(script, answers=None):
    """Stops at the first line that differs; answers how many lines were compared.

    `answers` are pairs of a script line's number and what must be printed for it; by default this
    implementation's. With BENCH=none only these are made, which tries a check without the program.
    """
    if answers is None:
        answers = expected(script)
    if str(BENCH) == "none":
        print(f"no program was run; {len(answers)} lines would be compared")
        sys.exit(3)
    status, printed, errors = run(script)
    for (number, wanted), line in zip(answers, printed):
        if line != wanted:
            fail(
                f"line {number} of the script: {shortened(script[number - 1])}\n"
                f"  expected: {shortened(wanted)}\n  printed:  {shortened(line)}\n"
                f"  {difference(wanted, line)}"
            )
    if len(printed) != len(answers):
        number = answers[len(printed)][0] if len(printed) < len(answers) else len(script)
        told = shortened(errors.strip())
        fail(
            f"{len(answers)} lines were expected and {len(printed)} were printed; they end at line {number}: "
            f"{shortened(script[number - 1])}\n  standard error: {told}"
        )
    if status != 0 or errors:
        fail(f"the program ended with status {status} and told: {shortened(errors.strip())}")
    return len(answers)


def difference(wanted, printed):
    """Where two long lines part, which is hard to see."""
    place = next((i for i, (a, b) in enumerate(zip(wanted, printed)) if a != b), min(len(wanted), len(printed)))
    return f"they part at character {place + 1}: {wanted[place:place + 24]!r} against {printed[place:place + 24]!r}"


def refused(script, number):
    """The program must end at that line with status 1, saying so, after printing what came before it."""
    before = expected(script[: number - 1])
    status, printed, errors = run(script)
    if status != 1:
        fail(f"status 1 was expected for the script line {shortened(script[number - 1])!r}; it was {status}")
    if not errors.startswith(f"line {number}: "):
        fail(f"'line {number}: ..' was expected on standard error; it was {shortened(errors)!r}")
    if printed != [line for _, line in before]:
        fail(f"before line {number} other lines were printed than expected: {shortened(repr(printed))}")
