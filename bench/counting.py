"""Instructions a frame of a corpus: a run with one pass over it and a run with three are subtracted, so that start and loading drop out.

The emulator counts where it is installed (qemu-user, with the plugin count.c), on every machine alike; else, on x86-64, valgrind (its tool
callgrind), which counts an instruction that repeats itself once for each turn, as C libraries have it that clear long stretches so.
"""

import pathlib
import platform
import re
import shutil
import subprocess
import sys

HERE = pathlib.Path(__file__).resolve().parent
FEW, MANY = 1, 3


def output(command, corpus):
    with open(corpus) as cases:
        done = subprocess.run(command, stdin=cases, capture_output=True, text=True)
    if done.returncode:
        sys.exit(f"{' '.join(map(str, command))}: {done.stderr}")
    return done


class Native:
    """x86-64 itself: valgrind counts."""
    runs = []
    times = True

    def __init__(self, work):
        pass

    def instructions(self, words, corpus):
        done = output(["valgrind", "--tool=callgrind", "--callgrind-out-file=/dev/null", *words], corpus)
        return int(re.search(r"Collected : (\d+)", done.stderr).group(1))


class Emulated:
    """Any machine: the emulator counts, by its plugin."""
    runs = ["qemu-x86_64", "-cpu", "qemu64"]
    times = platform.machine() == "x86_64"

    def __init__(self, work):
        self.plugin, self.count = work / "count.so", work / "count"
        subprocess.run(["cc", "-O2", "-shared", "-fPIC", "-o", self.plugin, HERE / "count.c"], check=True)

    def instructions(self, words, corpus):
        output([*self.runs, "-plugin", f"{self.plugin},out={self.count}", *words], corpus)
        return int(self.count.read_text())


def machine(work):
    work.mkdir(parents=True, exist_ok=True)
    emulated = platform.machine() != "x86_64" or shutil.which(Emulated.runs[0])
    return (Emulated if emulated else Native)(work)


def written(work, name):
    """The corpus of that name, in a file."""
    corpus = work / name
    with open(corpus, "w") as cases:
        subprocess.run([HERE / "corpora", name], stdout=cases, check=True)
    return corpus


def a_frame(counter, words, corpus, frames):
    """What the program of these words takes for a frame; its last word is to be the number of passes."""
    few, many = (counter.instructions([*words, str(passes)], corpus) for passes in (FEW, MANY))
    return (many - few) / (MANY - FEW) / frames
