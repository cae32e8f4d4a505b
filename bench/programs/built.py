"""Builds a program of this folder, which stands outside the gate, beside the crates of the repository, and runs it."""
import shutil
import subprocess
import sys
import tempfile
from contextlib import contextmanager
from pathlib import Path

PROGRAMS = Path(__file__).resolve().parent
TOP = PROGRAMS.parent.parent


def needed(crate, uses):
    """The crate and all that it stands on, as lines of crates.txt, lowest first."""
    lines = []
    for low in uses.get(crate, []):
        lines += [line for line in needed(low, uses) if line not in lines]
    return lines + ([f"{crate}: {' '.join(uses[crate])}\n"] if crate in uses else [])


@contextmanager
def copied(name, stands_on):
    """Puts the program NAME, which stands on these crates, beside copies of them, with what is built of them, and gives its folder."""
    listed = [line.split(":") for line in (TOP / "crates.txt").read_text().splitlines() if line and line[0] != "#"]
    uses = {crate: low.split() for crate, low in listed} | {name: stands_on}
    with tempfile.TemporaryDirectory() as folder:
        lines = needed(name, uses)
        (Path(folder) / "crates.txt").write_text("".join(lines))
        if (TOP / "HANDLES").exists():
            shutil.copy(TOP / "HANDLES", folder)
        for crate in (line.split(":")[0] for line in lines[:-1]):
            shutil.copytree(TOP / "crates" / crate, Path(folder) / "crates" / crate)
        for source in (PROGRAMS / name).rglob("*.in"):
            copy = Path(folder) / "crates" / name / source.relative_to(PROGRAMS / name).with_suffix("")
            copy.parent.mkdir(parents=True, exist_ok=True)
            shutil.copy(source, copy)
        print(f"proving and building the program {name}; this takes minutes", file=sys.stderr)
        yield Path(folder) / "crates" / name


def output(name, stands_on, words=()):
    """Proves, builds and runs the program NAME, which stands on these crates, and gives its lines of output."""
    with copied(name, stands_on) as folder:
        run = subprocess.run(["rt", "run", "--", *words], cwd=folder, capture_output=True, text=True)
        if run.returncode != 0:
            sys.exit(run.stdout + run.stderr)
        return [line for line in run.stdout.splitlines() if " a second" in line]
