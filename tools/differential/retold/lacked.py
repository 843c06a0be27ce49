"""How many bits were lacked where a case ran out: the definitions' number, since the Rust does not say it."""

import pathlib
import subprocess

RUN = pathlib.Path(__file__).resolve().parents[2] / "definitions" / "run"


def with_lacked(cases, said):
    """The answers, each `no 4 REACH` with the number behind it; the definitions must say the same number and reach."""
    short = [at for at, line in enumerate(said) if line.startswith("no 4 ")]
    text = "".join(cases[at] + "\n" for at in short)
    ran = subprocess.run([RUN], input=text, capture_output=True, text=True, check=True).stdout.splitlines()
    if len(ran) != len(short):
        raise SystemExit(f"{len(ran)} answers to {len(short)} cases")
    found = list(said)
    for at, line in zip(short, ran):
        if line.split()[:3] != said[at].split()[:3]:
            raise SystemExit(f"the definitions say otherwise: {line}\n{cases[at]}\n{said[at]}")
        found[at] = line
    return found
