"""The commands of a page, run in their order, and compared with what the page shows.

A page has its commands in one of two forms, or in both:

- A fenced block that begins with ```sh is run as a whole. What it prints, standard error included, is in the block ```text that follows it directly. A
  block without one must print nothing. A block that begins with ```sh and one more word isn't run: `root` says that it needs root or a device, `kit` that
  it needs the kit. A comment <!-- hidden: COMMAND --> is run and not shown, and must print nothing.
- In a block of four blanks, a line that begins with `$ ` is a command as it is typed; one that ends with a backslash continues in the next line. What
  follows in the block is what it prints. A line that begins with `# ` is typed by root or on another machine, and isn't run.

A moment, a digest, the line of a kit, a key that a client makes, a count of turns, a time in milliseconds, the port of a client, and the page that a message
of the program points to may be any other of their form.

It needs bash, what the page uses, and python3.
"""

import os
import re
import select
import shutil
import signal
import subprocess
import tempfile
import time
from collections.abc import Iterable, Iterator, Mapping

from checks.lib import bridge
from checks.lib.program import named

TOP = os.path.dirname(os.path.dirname(os.path.dirname(os.path.abspath(__file__))))
SECONDS = 60  # for each command

# takes one command after another from the descriptor that $1 names, and ends what it prints with a mark
SHELL = r"""
status=0
while IFS= read -r -d '' -u $1 command; do
    (exit $status)
    eval "$command" </dev/null
    status=$?
    printf '\001'
done
"""

FORMS = [
    (r"\d{4}-\d\d-\d\d \d\d:\d\d:\d\d", "<moment>"),
    (r"\w{3}, \d\d \w{3} \d{4} \d\d:\d\d:\d\d GMT", "<date>"),
    (r"\b[0-9a-f]{64}\b", "<digest>"),
    (r"^proved by .*", "proved by <kit>"),
    (r"\bkey [0-9a-f]{20}\b", "key <key>"),
    (r"\bturns \d+", "turns <count>"),
    (r"\b\d+ ms\b", "<time> ms"),
    (r"\b(office|terminal) 127\.0\.0\.1:\d+", r"\1 <client>"),
    (r"\bsee \w+\.md, [^\n]*", "see <page>"),
    (r"\r", ""),
    (r"[ \t]+$", ""),
]


class Step:
    """A command of a page, the number of its line, and what it is to print."""

    def __init__(self, line: int, command: str) -> None:
        self.line, self.command = line, command
        self.wanted: list[str] = []


def steps_of(path: str) -> list[Step]:
    """Return the commands of the page, in their order."""
    with open(path, encoding="utf-8") as file:
        lines = file.read().splitlines()
    steps: list[Step] = []
    answered: Step | None = None
    at, goes_on, is_open = 0, False, False
    while at < len(lines):
        line, text = lines[at], lines[at][4:]
        at += 1
        if fence := re.match(r"( *)```(.*)", line):
            first, is_open, goes_on = at, False, False
            while at < len(lines) and lines[at].strip() != "```":
                at += 1
            body = [it[len(fence[1]) :] for it in lines[first:at]]
            at += 1
            if fence[2] == "sh":
                answered = Step(first + 1, "\n".join(body))
                steps.append(answered)
            elif fence[2] == "text" and answered:
                answered.wanted, answered = body, None
            else:
                answered = None
            continue
        if line.strip():
            answered = None
        if hidden := re.fullmatch(r" *<!-- hidden: (.*) -->", line):
            steps.append(Step(at, hidden[1]))
        elif not line and is_open:
            steps[-1].wanted.append("")
        elif not line.startswith("    "):
            is_open = False
        elif goes_on:
            steps[-1].command += "\n" + text
        elif text.startswith("$ "):
            steps.append(Step(at, text[2:]))
            is_open = True
        elif text.startswith("# "):
            is_open = False
        elif is_open:
            steps[-1].wanted.append(text)
        goes_on = is_open and line.endswith("\\")
    return steps


def replaced(text: str, names: dict[str, str]) -> str:
    """Return the text with each name replaced by its value, in one pass."""
    if not names:
        return text
    longest = sorted(names, key=len, reverse=True)
    pattern = "|".join(re.escape(it) + (r"(?!\d)" if it[-1].isdigit() else "") for it in longest)
    return re.sub(pattern, lambda it: names[it[0]], text)


def formed(text: str, names: dict[str, str]) -> str:
    """Return the text with names replaced, and with what differs each time put as its form."""
    text = replaced(text, names)
    for pattern, form in FORMS:
        text = re.sub(pattern, form, text, flags=re.MULTILINE)
    return text.strip("\n")


class Shell:
    """A shell in a folder of its own, in which commands leave what they leave for the next. `weighbridge` is the one in the folder `of`."""

    def __init__(self, folder: str, of: str = TOP) -> None:
        commands, self.commands = os.pipe()
        environment = {
            **os.environ,
            "PATH": of + os.pathsep + os.environ["PATH"],
            "LC_ALL": "C",
            "TZ": "UTC",
        }
        self.process = subprocess.Popen(
            ["bash", "-c", SHELL, "bash", str(commands)],
            cwd=folder,
            env=environment,
            pass_fds=[commands],
            stdin=subprocess.DEVNULL,
            stdout=subprocess.PIPE,
            stderr=subprocess.STDOUT,
            start_new_session=True,
        )
        os.close(commands)

    def run(self, command: str) -> str | None:
        """Return what the command prints. Return None if it didn't end in time."""
        os.write(self.commands, command.encode() + b"\0")
        assert self.process.stdout is not None  # it is a pipe
        until, printed = time.monotonic() + SECONDS, b""
        while not printed.endswith(b"\1"):
            left = until - time.monotonic()
            if left <= 0 or not select.select([self.process.stdout], [], [], left)[0]:
                return None
            more = os.read(self.process.stdout.fileno(), 4096)
            if not more:
                return None
            printed += more
        return printed[:-1].decode()

    def end(self) -> None:
        """Ends the shell and what it started, which is all in one session."""
        end_session(self.process)


def end_session(process: subprocess.Popen[bytes]) -> None:
    """Ends a process that leads a session, and what is in it."""
    try:
        os.killpg(process.pid, signal.SIGTERM)
    except ProcessLookupError:
        pass
    process.wait()


def shown(
    page: str, ports: Iterable[int], names: Mapping[str, str] | None = None
) -> Iterator[tuple[str, str, str]]:
    """Run the page's commands in a new folder, in which clients/ and inspect/ are there. For each of them yield where it stands, what the page shows, and what it
    printed. Free ports replace the ports that the page names, and other texts the names; `{here}` in such a text is the folder.
    """
    steps = steps_of(os.path.join(TOP, page))
    with tempfile.TemporaryDirectory() as folder:
        known = {it: value.replace("{here}", folder) for it, value in (names or {}).items()}
        known.update(ports_of(ports))
        shell = shell_in(folder, *named())
        try:
            for step in steps:
                yield (f"{page}:{step.line}: {step.command}", *compared(step, shell, known))
        finally:
            shell.end()


def compared(
    step: Step, shell: Shell, names: dict[str, str], is_exact: bool = False
) -> tuple[str, str]:
    """Run a command of a page. Return what the page shows and what came: to the letter if it is exact, and otherwise without what differs each time."""
    printed = shell.run(replaced(step.command, names))
    if printed is None:
        return "an end of the command", f"none within {SECONDS} s"
    wanted, found = "\n".join(step.wanted).strip("\n"), printed.strip("\n")
    return (wanted, found) if is_exact else (formed(wanted, names), formed(found, names))


def shell_in(folder: str, *programs: str | None) -> Shell:
    """Return a shell in this folder with clients/ and inspect/ in it. `weighbridge` is the first of the programs, `weighbridge-converter` the second; without
    programs both are the launcher.
    """
    for name in ("clients", "inspect"):
        os.symlink(os.path.join(TOP, name), os.path.join(folder, name))
    given = [it for it in programs if it is not None]
    if not given:
        return Shell(folder)
    of = os.path.join(folder, ".program")
    os.mkdir(of)
    for program, name in zip(given, ("weighbridge", "weighbridge-converter")):
        # A copy, since `rt ci` may leave the program as a file that isn't executable.
        shutil.copyfile(program, os.path.join(of, name))
        os.chmod(os.path.join(of, name), 0o755)
    return Shell(folder, of)


def ports_of(ports: Iterable[int]) -> dict[str, str]:
    """Return the addresses of these ports as a page writes them, with those of free ports."""
    free = [(port, bridge.free_port()) for port in ports]
    return {
        f"127.0.0.1{parted}{port}": f"127.0.0.1{parted}{it}"
        for port, it in free
        for parted in (":", " ")
    }
