"""The cases and answers of the program `entry_lines` that scripts make, behind the handwritten ones.

A section begins with a line that is no case, which begins with `below: `, and ends before the next one. The last case of the file has
no line feed.
"""

import pathlib

CRATE = pathlib.Path(__file__).resolve().parents[3] / "crates" / "entry_lines"
NO_LINE = "no line"


def lines_of(path):
    # As they stand: a case may have a carriage return.
    return path.read_bytes().decode("latin-1").removesuffix("\n").split("\n")


def write(path, lines, last):
    path.write_bytes(("\n".join(lines) + last).encode("latin-1"))


def replace(marker, cases, said):
    """Put this section in the place of the one with this marker, or at the end."""
    stdin, stdout = CRATE / "stdin", CRATE / "stdout"
    old, answers = lines_of(stdin), lines_of(stdout)
    if len(old) != len(answers):
        raise SystemExit(f"{len(old)} cases and {len(answers)} answers in {CRATE}")
    begins = [at for at, line in enumerate(old) if line.startswith("below: ")] + [len(old)]
    first, last = next(((at, behind) for at, behind in zip(begins, begins[1:]) if old[at] == marker), (len(old), len(old)))
    write(stdin, old[:first] + [marker] + cases + old[last:], "")
    write(stdout, answers[:first] + [NO_LINE] + said + answers[last:], "\n")
