"""The answers of the two programs that `oracle/build` made, to many cases at once."""

import subprocess


def said(program, cases):
    text = "".join(f"{case}\n" for case in cases)
    run = subprocess.run([program], input=text, capture_output=True, encoding="utf-8", check=True)
    return run.stdout.split("\n")[:-1]


def answers(out, cases):
    """For each case what `oracle` says and what `watched` says."""
    both = said(out / "oracle", cases), said(out / "watched", cases)
    if not len(cases) == len(both[0]) == len(both[1]):
        raise SystemExit(f"{len(cases)} cases, {len(both[0])} and {len(both[1])} answers")
    return list(zip(*both))


def runs(lines):
    """Lines that follow each other and are the same: the first one's place, the last one's, and the line."""
    first = 0
    for at in range(1, len(lines) + 1):
        if at == len(lines) or lines[at] != lines[first]:
            yield first, at - 1, lines[first]
            first = at
