"""Builds a program that isn't one of the repository's over crates that are, in a folder with copies of the crates that it stands on."""

import os
import re
import shutil
import subprocess
from pathlib import Path

from checks import TOP


def listed() -> dict[str, str]:
    """Return the line of each crate in crates.txt, by its name."""
    with open(TOP / "crates.txt", encoding="utf-8") as file:
        return {line.partition(":")[0].split()[0]: line for line in file if ":" in line}


def needed(lines: dict[str, str], names: list[str], found: list[str]) -> list[str]:
    """Return these names of crates, and those of the crates below them, each once."""
    for name in names:
        if name in lines and name not in found:
            found.append(name)
            needed(lines, lines[name].partition(":")[2].split(), found)
    return found


def copy_crate(name: str, folder: str) -> None:
    for part in ("src", "specs", "proofs"):
        source = TOP / "crates" / name / part
        if source.is_dir():
            shutil.copytree(source, os.path.join(folder, "crates", name, part))


def folder_with(name: str, folder: str) -> Path:
    """Write crates.txt, copies of the crates, and the crate of a program of checks/rattle. Return its folder. The program must be laid out by `rt fmt`."""
    lines = listed()
    text = (TOP / "checks" / "rattle" / f"{name}.text").read_text(encoding="utf-8")
    libraries = sorted({*re.findall(r"(?m)^use (\w+)::", text)} - {"std"})
    crates = needed(lines, libraries, [])
    for crate in crates:
        copy_crate(crate, folder)
    own = Path(folder) / "crates" / name
    (own / "src").mkdir(parents=True)
    (own / "src" / "main.rt").write_text(text, encoding="utf-8")
    with open(os.path.join(folder, "crates.txt"), "w", encoding="utf-8") as file:
        file.writelines([*(lines[crate] for crate in crates), f"{name}: {' '.join(libraries)}\n"])
    subprocess.run(["git", "init", "-q", folder], check=True)
    subprocess.run(["rt", "fmt"], cwd=own, check=True, stdout=subprocess.DEVNULL)
    if (own / "src" / "main.rt").read_text(encoding="utf-8") != text:
        raise AssertionError(f"checks/rattle/{name}.text isn't laid out as `rt fmt` does it")
    return own


def build_over(name: str, folder: str) -> Path:
    """Build the program by `rt ci`, so that what was proved on this machine isn't proved again. Run without words it prints `done`. Return its path."""
    own = folder_with(name, folder)
    (own / "stdout").write_text("done\n", encoding="ascii")
    shutil.copyfile(TOP / "HANDLES", os.path.join(folder, "HANDLES"))
    run = subprocess.run(
        ["rt", "ci"], cwd=folder, stdout=subprocess.PIPE, stderr=subprocess.STDOUT, text=True
    )
    if run.returncode != 0:
        raise AssertionError(run.stdout)
    return own / "out" / name
