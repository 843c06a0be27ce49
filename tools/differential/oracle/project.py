"""The Rust text with its substitutions as a cargo project outside this repository; `build` here and bench/build make theirs with it."""

import os
import pathlib
import shutil
import subprocess
import sys

HERE = pathlib.Path(__file__).resolve().parent
REGISTRY = os.environ.get("ADJAGOSK_REGISTRY", "/usr/share/cargo/registry")

MANIFEST = """\
[package]
name = "oracle"
version = "0.0.0"
edition = "2021"

[dependencies]
serde_json = "1"

[profile.release]
panic = "abort"
"""

PROGRAM = """
[[bin]]
name = "{name}"
path = "{name}.rs"
"""

CONFIG = """\
[source.crates-io]
replace-with = "installed"

[source.installed]
directory = "{registry}"
"""


def arguments(words, usage):
    """The Rust text and the directory to build in, from SOURCE OUT or, with the variable ADJAGOSK_SOURCE, from OUT."""
    source = os.environ.get("ADJAGOSK_SOURCE")
    if len(words) == 2:
        source = words.pop(0)
    if source is None or len(words) != 1:
        sys.exit(usage)
    out = pathlib.Path(words[0]).resolve()
    for folder in (out, *out.parents):
        if (folder / ".git").exists():
            sys.exit(f"build: {out} lies in a repository; the Rust text must stay outside")
    return pathlib.Path(source).read_text(), out


def program(text, *parts):
    """A program is the text, whose private functions the parts then see, and the parts."""
    return text + "".join(f"\n// {part}\n" + (HERE / part).read_text() for part in parts)


def write(path, text):
    path.parent.mkdir(parents=True, exist_ok=True)
    path.write_text(text)


def build(out, programs, profile="", flags="", target=None):
    """Build the programs, by name, and put each into `out`; `profile` goes to the manifest, `flags` to rustc; for another machine
    than this one if `target` names it."""
    write(out / "Cargo.toml", MANIFEST + profile + "".join(PROGRAM.format(name=name) for name in programs))
    write(out / ".cargo" / "config.toml", CONFIG.format(registry=REGISTRY))
    for name, text in programs.items():
        write(out / f"{name}.rs", text)
    # What the substitutions leave unused is no fault.
    environment = dict(os.environ, RUSTFLAGS=f"-A dead_code {flags}".strip())
    command = ["cargo", "build", "--release", "--offline", "--quiet", *(["--target", target] if target else [])]
    subprocess.run(command, cwd=out, env=environment, check=True)
    for name in programs:
        shutil.copy2(out / "target" / (target or "") / "release" / name, out / name)
