"""The programs of a demo: each is a process of its own, with a log in the demo's folder."""

import asyncio
import contextlib
import os
import shutil
import signal
from pathlib import Path

LAST_LINES = 6
END_WITHIN = 2.0  # seconds after SIGTERM; then a part is killed


class PartFault(Exception):
    """Raised if a part ended unexpectedly, or couldn't be started. Its text says which one and why."""


class Part:
    def __init__(
        self, name: str, words: list[str], log: Path, end_within: float = END_WITHIN
    ) -> None:
        self.name, self.words, self.log, self.end_within = name, words, log, end_within
        self.process: asyncio.subprocess.Process | None = None

    async def start(self, has_input: bool = False) -> None:
        """Start the program. Raises PartFault."""
        with open(self.log, "ab") as log:
            try:
                self.process = await asyncio.create_subprocess_exec(
                    *with_parent(self.words),
                    stdin=asyncio.subprocess.PIPE if has_input else asyncio.subprocess.DEVNULL,
                    stdout=log,
                    stderr=log,
                    start_new_session=True,  # so that Ctrl-C ends the parts in their order
                )
            except OSError as fault:
                raise PartFault(f"{self.name}: {self.words[0]}: {fault.strerror}") from None

    def is_running(self) -> bool:
        return self.process is not None and self.process.returncode is None

    async def ended(self) -> "Part":
        """Wait until the program has ended."""
        assert self.process is not None
        await self.process.wait()
        return self

    def fault(self) -> PartFault:
        """Return what to say of a program that ended unexpectedly."""
        assert self.process is not None and self.process.returncode is not None
        lines = "".join(f"\n    {it}" for it in self.last_lines())
        return PartFault(
            f"{self.name} ended {how(self.process.returncode)}; its last lines, in {self.log}:{lines or ' none'}"
        )

    def last_lines(self) -> list[str]:
        with contextlib.suppress(OSError):
            return self.log.read_text(encoding="utf-8", errors="replace").splitlines()[-LAST_LINES:]
        return []

    async def end(self) -> None:
        """End the program by SIGTERM, or by SIGKILL if it takes too long."""
        if self.process is None:
            return
        if self.process.stdin is not None:
            self.process.stdin.close()
        self.send(signal.SIGTERM)
        try:
            await asyncio.wait_for(self.process.wait(), self.end_within)
        except asyncio.TimeoutError:
            self.send(signal.SIGKILL)
            await self.process.wait()
        if self.process.stdin is not None:
            with contextlib.suppress(OSError, asyncio.TimeoutError):  # what wasn't written is lost
                await asyncio.wait_for(self.process.stdin.wait_closed(), self.end_within)

    def send(self, number: signal.Signals) -> None:
        if self.process is not None and self.process.returncode is None:
            with contextlib.suppress(ProcessLookupError):
                self.process.send_signal(number)


def with_parent(words: list[str]) -> list[str]:
    """Return words that start the program so that it ends if this one is killed."""
    setpriv = shutil.which("setpriv", path="/usr/bin:/bin")
    return [setpriv, "--pdeathsig", "TERM", "--", *words] if setpriv else words


def how(status: int) -> str:
    if status >= 0:
        return f"with status {status}"
    with contextlib.suppress(ValueError):
        return f"by {signal.Signals(-status).name}"
    return f"by signal {-status}"


async def run(name: str, words: list[str], given: str = "") -> str:
    """Return what a short program prints. Raises PartFault if it fails."""
    try:
        it = await asyncio.create_subprocess_exec(
            *with_parent(words),
            stdin=asyncio.subprocess.PIPE,
            stdout=asyncio.subprocess.PIPE,
            stderr=asyncio.subprocess.PIPE,
            env={**os.environ, "LC_ALL": "C.UTF-8"},
        )
    except OSError as fault:
        raise PartFault(f"{name}: {words[0]}: {fault.strerror}") from None
    printed, said = await it.communicate(given.encode())
    if it.returncode:
        raise PartFault(
            f"{name} ended {how(it.returncode)}: {said.decode(errors='replace').strip()}"
        )
    return printed.decode(errors="replace")
