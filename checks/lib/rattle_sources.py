"""The functions of Rattle's sources: their places, a source without their bodies, and a copy of a crate in which functions only have their contracts.
It only needs python3.
"""
import os
import re
import shutil
from collections.abc import Collection, Iterable, Iterator
from pathlib import Path

# The type, the trait and the name of a function; the modules of each type.
Key = tuple[str, str, str]
Homes = dict[str, list[list[str]]]
PARTS = ("src", "specs", "proofs")
COMMENT_OR_TEXT = re.compile(
    r"""//[^\n]*|/\*.*?\*/|b?"(?:\\.|[^"\\])*"|b?'(?:\\[^']*|[^'\\\n])'""", re.S
)
CLAUSE = re.compile(r"\b(?:requires|ensures)\s*\*?\s*\w*\s*$|\bghost\b\s*\w*\s*:?\s*\w*\s*=?\s*$")


def read(path: str) -> str:
    return Path(path).read_text(encoding="utf-8")


def write(path: str, text: str) -> None:
    os.makedirs(os.path.dirname(path), exist_ok=True)
    Path(path).write_text(text, encoding="utf-8")


def files_below(folder: str, parts: Iterable[str]) -> list[str]:
    walks = (walk for part in parts for walk in os.walk(f"{folder}/{part}"))
    return sorted(os.path.relpath(f"{at}/{it}", folder) for at, _, names in walks for it in names)


class Function:
    """A function of a text: where it stands, and the names under which the prover speaks of it."""

    def __init__(
        self, name: str, impl: tuple[str, str], start: int, opening: int, end: int
    ) -> None:
        self.name, self.start, self.opening, self.end = name, start, opening, end
        self.type, self.trait = impl

    def key(self) -> Key:
        return self.type, self.trait, self.name


def blanked(text: str) -> str:
    """Return the text with blanks in place of comments and literals, so that each place stays where it is."""
    return COMMENT_OR_TEXT.sub(lambda it: re.sub(r"[^\n]", " ", it[0]), text)


def end_of_block(text: str, opening: int) -> int:
    depth = 0
    for it in re.compile(r"[{}]").finditer(text, opening):
        depth += 1 if it[0] == "{" else -1
        if depth == 0:
            return it.end()
    return len(text)


def body_of(text: str, at: int) -> int | None:
    """Return where the body of the function whose name ends at this place begins, past its clauses, or None if it has no body."""
    depth = 0
    head = at
    while at < len(text):
        letter = text[at]
        if letter in "([":
            depth += 1
        elif letter in ")]":
            depth -= 1
        elif letter == ";" and depth == 0:
            return None
        elif letter == "{":
            if not CLAUSE.search(text, head, at) and depth == 0:
                return at
            at = end_of_block(text, at) - 1
        at += 1
    return None


def impls_of(text: str) -> Iterator[tuple[int, int, tuple[str, str]]]:
    """Yield the blocks of `impl` and `trait`, each with its type, and its trait if it has one."""
    for it in re.finditer(r"(?m)^(?:pub(?:\(\w+\))? )?(?:unsafe )?trait (\w+)[^{;]*\{", text):
        yield it.start(), end_of_block(text, it.end() - 1), ("", it[1])
    for it in re.finditer(r"(?m)^(?:unsafe )?impl\b([^{;]*)\{", text):
        head = it[1]
        while re.search(r"<[^<>]*>", head):
            head = re.sub(r"<[^<>]*>", "", head)
        trait, _, type_name = head.split("where")[0].rpartition(" for ")
        yield it.start(), end_of_block(text, it.end() - 1), (
            type_name.split("::")[-1].strip(),
            trait.split("::")[-1].strip(),
        )


def first_line(text: str, at: int) -> int:
    """Return where the lines begin that belong to the function at this place, with its attributes and its comments."""
    start = text.rfind("\n", 0, at) + 1
    while start:
        above = text.rfind("\n", 0, start - 1) + 1
        if not text[above:start].lstrip().startswith(("#[", "///")):
            break
        start = above
    return start


def functions_of(text: str) -> list[Function]:
    """Return the functions of a source that have a body."""
    written, text = text, blanked(text)
    impls = [*impls_of(text)]
    found: list[Function] = []
    for it in re.finditer(r"\bfn\s+(\w+)", text):
        opening = body_of(text, it.end())
        if opening is None or any(other.opening < it.start() < other.end for other in found):
            continue
        impl = next((named for first, last, named in impls if first < it.start() < last), ("", ""))
        start, end = first_line(written, it.start()), end_of_block(text, opening)
        found.append(Function(it[1], impl, start, opening, end))
    return found


def contracts_of(text: str) -> str:
    """Return a source without comments and without the bodies of its functions: what their contracts say."""
    parts: list[str] = []
    at = 0
    for it in functions_of(text):
        parts.append(text[at : it.opening])
        at = it.end
    return re.sub(r"(?m)^\s*//[^\n]*\n", "", "".join([*parts, text[at:]]))


def module_of(file: str) -> list[str]:
    parts = file.removeprefix("src/").removesuffix(".rt").split("/")
    return [it for it in parts if it not in ("lib", "mod")]


def path_of(homes: Homes, file: str, key: Key) -> list[str]:
    """Return the path below the crate by which the prover names a plain function: a method's begins with the module of its type."""
    type_name, _, name = key
    if not type_name:
        return [*module_of(file), name]
    modules = homes.get(type_name, [])
    module = module_of(file) if module_of(file) in modules or not modules else modules[0]
    return [*module, type_name, name]


def homes_of(folder: str) -> Homes:
    """Return the modules in which a type is declared, by the names of the crate's types."""
    homes: Homes = {}
    declared = r"(?m)^\s*(?:pub(?:\(\w+\))? )?(?:struct|enum|union) (\w+)"
    for file in files_below(folder, ["src"]):
        for it in re.finditer(declared, blanked(read(f"{folder}/{file}"))):
            homes.setdefault(it[1], []).append(module_of(file))
    return homes


def is_plain(function: Function, text: str) -> bool:
    """Return whether the function has a name of its own and its body is no part of a type.

    So it is no method of a trait or its impl, and no constant function.
    """
    head = text[function.start : function.opening]
    return not function.trait and not re.search(r"\bconst\s+(unsafe\s+)?fn\b|->\s*impl\b", head)


def leave_contracts(
    crate: str, folder: str, keep: Collection[tuple[str, Key]] = frozenset()
) -> None:
    """Leave only the contracts of the copy's plain functions, except those to keep. Their bodies do nothing, and their proofs are holes."""
    homes = homes_of(folder)
    for file in files_below(folder, ["src"]):
        text = read(f"{folder}/{file}")
        for it in reversed(functions_of(text)):
            if is_plain(it, text) and (file, it.key()) not in keep:
                text = f"{text[: it.opening]}{{\n    unreachable!()\n}}{text[it.end :]}"
                leave_hole(crate, folder, path_of(homes, file, it.key()))
        write(f"{folder}/{file}", text)


def leave_hole(crate: str, folder: str, path: list[str]) -> None:
    """Replace the proof of the function at this path by a hole, and remove its proof as a function that calls itself."""
    above, name = f"{folder}/proofs/{'/'.join(path[:-1])}", path[-1]
    shutil.rmtree(f"{above}/+{name}", ignore_errors=True)
    for it in ("Answers", "Invariants"):
        Path(above, name, f"{it}.antt").unlink(missing_ok=True)
    statement = f"use Rattle.{crate}.proofs.{'.'.join(path)}.Statement.{{statement}}\n"
    write(
        f"{above}/{name}/Proof.antt",
        f"{statement}\npub {name}_spec : {{M : Type 1}} → statement M\n{name}_spec = ?\n",
    )


def copied(source: str, to: str) -> None:
    for part in PARTS:
        if os.path.isdir(f"{source}/{part}"):
            shutil.copytree(f"{source}/{part}", f"{to}/{part}")
