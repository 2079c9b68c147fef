"""Shows that the shells offer every subcommand, option and value of both programs, and no more.
"""

import os
import re
import subprocess
from collections.abc import Callable
from typing import Any

from checks import TOP
from checks.lib.case import PROGRAM, Check, skip_without
from checks.lib.program import CONVERTER
from checks.lib.program import PROGRAM as BUILT

# Returns what a shell offers for the last of the words: its arguments are a folder, the name of the program, and the words.
Offered = Callable[[str, str, list[str]], list[str]]


def printed_by(*words: str, **how: Any) -> str:
    return str(subprocess.run(words, capture_output=True, text=True, check=True, **how).stdout)


def offered_by_bash(folder: str, name: str, words: list[str]) -> list[str]:
    """Return what bash offers for the last of these words."""
    function = "_" + name.replace("-", "_")
    script = f'source "{folder}/{name}"; shift; COMP_WORDS=("$@"); COMP_CWORD=$((${{#COMP_WORDS[@]}} - 1)); {function}; printf "%s\\n" "${{COMPREPLY[@]}}"'
    return sorted(
        printed_by("bash", "-c", script, "bash", "words", name, *words, cwd=folder).split()
    )


def offered_by_fish(folder: str, name: str, words: list[str]) -> list[str]:
    script = f'source "{folder}/{name}.fish"; complete -C "{" ".join([name, *words])}"'
    own = {**os.environ, "HOME": folder}
    said = printed_by("fish", "--no-config", "-c", script, cwd=folder, env=own)
    return sorted(line.split("\t")[0] for line in said.splitlines())


def options(program: str, *words: str) -> tuple[list[str], str]:
    text = printed_by(program, *words, "--help")
    # the example after them may begin a line with an option too
    listed = text.split("\nExample")[0]
    return sorted(re.findall(r"^ +(?:-\w, )?(--[\w-]+)", listed, re.M)), text


# Prints what zsh passes to its own functions of completion: the specifications of _arguments, and the rows of _describe.
ZSH = """
_arguments() { [[ $1 != -C ]] || { shift; state=$STATE; line=($COMMAND); }; print -rl -- "arguments $COMMAND" "$@"; }
_describe() { print -rl -- describe "${(@P)2}"; }
completes() { source "$1"; }
completes "$1"
"""


def offered_by_zsh(folder: str, name: str, words: list[str]) -> list[str]:
    """Return what zsh's functions of completion get, for the last of these words."""
    command = words[0] if len(words) > 1 else ""
    given = {**os.environ, "STATE": "words" if command else "command", "COMMAND": command}
    script = ["zsh", "-f", "-c", ZSH, "zsh", f"{folder}/_{name}"]
    done = subprocess.run(script, capture_output=True, text=True, check=True, env=given)
    if done.stderr:
        return [done.stderr]
    rows = done.stdout.split(f"arguments {command}\n")[-1].splitlines()
    if words == [""]:
        return sorted(row.split(":")[0] for row in rows[rows.index("describe") + 1 :])
    specifications = [
        re.fullmatch(r"(--?[\w-]+)\[([^]]+)\](?::([^:]+):(.*))?", row) for row in rows
    ]
    options = {it[1]: it[4] for it in specifications if it}
    if words[-1] == "--":
        return sorted(it for it in options if it.startswith("--"))
    takes = options[words[-2]]
    if takes == "_files":
        return sorted(it for it in os.listdir(folder) if it.startswith(words[-1]))
    return sorted(takes.strip().strip("()").split())


class Completions(Check):
    """The subcommands, options and values that each shell offers."""

    needs = (PROGRAM,)

    def show(self, shell: str, offered: Offered) -> None:
        folder = self.folder()
        open(f"{folder}/a_journal.db", "w").close()
        for name, program in (("weighbridge", BUILT), ("weighbridge-converter", CONVERTER)):
            subprocess.run([TOP / "packaging" / "completions", program, folder], check=True)
            own, text = options(program)
            listed = text.split("Commands:")[1].split("Options:")[0]
            commands = sorted({*re.findall(r"^  (\w+) ", listed, re.M)} - {"help"})
            found = [it for it in offered(folder, name, [""]) if not it.startswith("-")]
            self.same(f"{shell}: the subcommands of {name}", commands, sorted({*found} - {"help"}))
            self.same(f"{shell}: the options of {name}", own, offered(folder, name, ["--"]))
            for command in commands:
                own, _ = options(program, command)
                found = offered(folder, name, [command, "--"])
                self.same(f"{shell}: the options of {name} {command}", own, found)
        for what, wanted, words in (
            ("what export may print", ["journal", "tickets"], ["export", "--what", ""]),
            ("files for --file", ["a_journal.db"], ["check", "--file", "a_j"]),
            ("nothing for a number", [], ["serve", "--max", "a_j"]),
        ):
            self.same(f"{shell}: {what}", wanted, offered(folder, "weighbridge", words))

    @skip_without("bash")
    def test_bash(self) -> None:
        self.show("bash", offered_by_bash)

    @skip_without("zsh")
    def test_zsh(self) -> None:
        self.show("zsh", offered_by_zsh)

    @skip_without("fish")
    def test_fish(self) -> None:
        self.show("fish", offered_by_fish)
