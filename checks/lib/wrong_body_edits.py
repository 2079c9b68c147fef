"""The crates of this repository with their mutants, and a digest of the contracts on which these are tried. It only needs python3."""
import hashlib
import os
import re
from collections.abc import Iterator
from pathlib import Path

from checks.lib.rattle_sources import (
    PARTS,
    Key,
    blanked,
    contracts_of,
    files_below,
    functions_of,
    read,
)

TOP = os.path.dirname(os.path.dirname(os.path.dirname(os.path.realpath(__file__))))


class Crate:
    """A crate of the repository: its folder, and what crates.txt says of it."""

    def __init__(self, name: str, named: list[str], is_static: bool) -> None:
        self.name, self.named, self.is_static = name, named, is_static
        self.folder = f"{TOP}/crates/{name}"

    def of_kit(self, crates: dict[str, "Crate"]) -> list[str]:
        return [it for it in self.named if it not in crates]

    def below(self, crates: dict[str, "Crate"]) -> list["Crate"]:
        found: list[Crate] = []
        for it in self.named:
            if it in crates:
                below = [*crates[it].below(crates), crates[it]]
                found += [each for each in below if each not in found]
        return found

    def edit_files(self) -> list[str]:
        folders = ("must-fail", "wrong-bodies")
        return [
            str(path) for it in folders for path in sorted(Path(self.folder, it).glob("*.edit"))
        ]

    def contracts(self) -> Iterator[tuple[str, str]]:
        """Return what the crate states: its specs, and its sources without their bodies."""
        for path in files_below(self.folder, ("src", "specs")):
            text = read(f"{self.folder}/{path}")
            yield path, contracts_of(text) if path.endswith(".rt") else text


class Edit:
    """A mutant: the pairs of texts that make it, and the functions that the prover must refuse for it."""

    def __init__(self, path: str, folder: str) -> None:
        self.name, self.path = os.path.basename(path).removesuffix(".edit"), path
        self.pairs: list[tuple[str, str, str]] = []
        self.own: set[tuple[str, Key]] = set()
        self.is_of_bodies, self.is_alone = True, False
        self.verdict: str | None = None
        self.copy: int | None = None
        file = old = ""
        for line in read(path).split("\n"):
            if line.startswith("file: "):
                file = line[len("file: ") :].strip()
            elif line.startswith("old: "):
                old = line[len("old: ") :]
            elif line.startswith("new:"):
                self.pairs.append((file, old, line[len("new:") :].removeprefix(" ")))
                old = ""
        try:
            texts = self.applied({}, folder)
            if not texts:
                raise ValueError("it has no pair of texts")
            self.find_functions(folder)
        except (OSError, ValueError) as error:
            self.verdict = f"BAD EDIT: {error}"

    def applied(self, texts: dict[str, str], folder: str) -> dict[str, str]:
        """Return the texts with this edit in them, next to the changes of others."""
        texts = dict(texts)
        for file, old, new in self.pairs:
            if not file.startswith(PARTS) or not old:
                raise ValueError("a pair has no file below src, specs or proofs, or no old text")
            text = texts[file] if file in texts else read(f"{folder}/{file}")
            if text.count(old) != 1:
                raise ValueError(f"an old text is in {file} {text.count(old)} times, and not once")
            texts[file] = text.replace(old, new)
        return texts

    def find_functions(self, folder: str) -> None:
        """Return the functions whose bodies it changes, and those that read a constant that it changes."""
        texts: dict[str, str] = {}
        for file, old, new in self.pairs:
            text = texts.setdefault(file, read(f"{folder}/{file}"))
            at = text.find(old)
            self.own |= {
                (file, it.key())
                for it in functions_of(text)
                if it.opening <= at and at + len(old) <= it.end
            }
            constant = re.match(r"\s*(?:pub(?:\(\w+\))? )?const (\w+)\b", old)
            if constant:
                self.is_of_bodies = False
                self.own |= readers_of(constant[1], folder)
            texts[file] = text.replace(old, new)
        if not self.own:
            raise ValueError("it changes no function's body and no constant that a function reads")


def readers_of(constant: str, folder: str) -> set[tuple[str, Key]]:
    """Return the functions that may depend on a constant: those that name it, and those that call one whose head names it."""
    texts = {file: blanked(read(f"{folder}/{file}")) for file in files_below(folder, ["src"])}
    functions = [
        (file, it, texts[file][it.start : it.opening], texts[file][it.opening : it.end])
        for file in texts
        for it in functions_of(texts[file])
    ]
    named = re.compile(rf"\b{constant}\b")
    naming = [function.name for _, function, head, _ in functions if named.search(head)]
    seen = re.compile("|".join(rf"\b{it}\b" for it in [constant, *naming]))
    return {
        (file, it.key())
        for file, it, head, body in functions
        if named.search(head) or seen.search(body)
    }


def crates_listed() -> dict[str, Crate]:
    crates: dict[str, Crate] = {}
    for line in read(f"{TOP}/crates.txt").split("\n"):
        name, colon, named = line.split("#")[0].partition(":")
        if colon:
            words = name.split()
            crates[words[0]] = Crate(words[0], named.split(), "staticlib" in words)
    return crates


def digest_of(crate: Crate, crates: dict[str, Crate]) -> str:
    """SHA-256 over the contracts of the crate and of those below it, and over its edits."""
    digest = hashlib.sha256()
    for it in [*crate.below(crates), crate]:
        for path, text in it.contracts():
            digest.update(f"{it.name}/{path}\n{text}\n".encode())
    for path in crate.edit_files():
        digest.update(f"{os.path.relpath(path, crate.folder)}\n{read(path)}\n".encode())
    return digest.hexdigest()
