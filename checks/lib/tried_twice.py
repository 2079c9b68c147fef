"""The base class of the tests of checks/program: what they run, and their second attempt."""

import contextlib
import functools
import resource
import signal
import subprocess
import unittest
from collections.abc import Callable, Iterator
from pathlib import Path
from types import FrameType
from typing import Any

from checks.lib import bridge
from checks.lib.case import PROGRAM, Check
from checks.lib.program import PROGRAM as LAUNCHER
from checks.lib.program import compiled
from checks.lib.showing import ok

# Not the launcher itself, which needs more memory than the program is given here.
BUILT = compiled()
# Longer than any test takes, even on a machine with other work: a test that hangs then never ends.
SECONDS = 400
Ended = tuple[int, str, str]  # the status, and what is printed and reported
FIRST = "key=K1&kind=first&plate=AB-12"
SECOND = "key=K2&kind=second&plate=AB-12"


def printed(*words: str, given: bytes = b"", **more: Any) -> Ended:
    """Return the status of a run, what it printed, and what it reported."""
    it = subprocess.run([BUILT, *words], input=given, capture_output=True, timeout=120, **more)
    return it.returncode, it.stdout.decode(), it.stderr.decode()


def limited(*limits: tuple[int, int]) -> Callable[[], None]:
    """Return what gives a new process these limits. A file that becomes too long is a fault, and doesn't end it."""

    def limit() -> None:
        signal.signal(signal.SIGXFSZ, signal.SIG_IGN)
        for kind, most in limits:
            resource.setrlimit(kind, (most, most))

    return limit


def contents(folder: str, beginning: str = "") -> dict[str, bytes]:
    """Return the files in a folder whose names begin so, with their bytes."""
    return {it.name: it.read_bytes() for it in Path(folder).glob(f"{beginning}*")}


def ended(process: subprocess.Popen[str], seconds: float = 60) -> Ended:
    out, err = process.communicate(timeout=seconds)
    return process.returncode, out, err


def addresses(
    terminal: object = 0, office: object = 0, converter: str = "/dev/null"
) -> tuple[str, ...]:
    """Return the options of a service with these ports of this machine."""
    host = bridge.HOST
    places = ("--terminal", f"{host}:{terminal}", "--office", f"{host}:{office}")
    return (*places, "--converter", converter)


def posted(service: bridge.Service, target: str, form: str = "") -> bridge.Answer:
    return bridge.post(service, target, form) or (0, "")


def got(service: bridge.Service, target: str) -> str:
    return (bridge.get(service, target) or (0, ""))[1]


def weigh(service: bridge.Service, form: str) -> bridge.Answer:
    return bridge.weigh(service, form, pause=0.1)


class Served(bridge.Service):
    """A service that may open a long journal before it listens."""

    def wait_for_office(self) -> None:
        bridge.wait_until_listening(self.office, self.process, 60)


def hangs(_number: int, _frame: FrameType | None) -> None:
    raise TimeoutError(f"it takes more than {SECONDS} s")


def tried_twice(test: Callable[["TriedTwice"], None]) -> Callable[["TriedTwice"], None]:
    """Return a test that tries this one, and once more if it fails."""

    @functools.wraps(test)
    def twice(self: "TriedTwice") -> None:
        signal.signal(signal.SIGALRM, hangs)
        signal.alarm(SECONDS)
        try:
            self.is_first = True
            test(self)
        except unittest.SkipTest:
            raise
        except Exception as error:
            print(f"again   {test.__name__}: {error}", flush=True)
            self.doCleanups()
            self.setUp()
            self.is_first = False
            signal.alarm(SECONDS)
            test(self)
        finally:
            signal.alarm(0)

    return twice


class TriedTwice(Check):
    """A check of the built program. A test that fails is tried once more, in a new folder, and only that attempt counts."""

    needs = (PROGRAM,)
    is_first = True

    def __init_subclass__(cls, **more: Any) -> None:
        super().__init_subclass__(**more)
        for name, test in list(vars(cls).items()):
            if name.startswith("test"):
                setattr(cls, name, tried_twice(test))

    @classmethod
    def setUpClass(cls) -> None:
        # builds it, unless it is built
        subprocess.run([LAUNCHER, "--version"], check=True, stdout=subprocess.DEVNULL)

    @contextlib.contextmanager
    def subTest(self, msg: Any = "", **params: Any) -> Iterator[None]:
        """Let a case that fails end the first attempt."""
        if self.is_first:
            yield
            ok(msg)
        else:
            with super().subTest(msg, **params):
                yield

    def serve(self, file: str, *words: str, converter: Any = None, **more: Any) -> bridge.Service:
        """Start a service over a file. Unless another is given, its converter sends the load that is put on the bridge."""
        converter = converter or bridge.Played()
        service = Served(BUILT, file, converter, *words, **more)
        self.addCleanup(service.close)
        return service

    def start(self, file: str, source: str, *words: str) -> tuple[subprocess.Popen[str], int, int]:
        """Start a service without a wait, and return it with the ports of its terminal and its office. Its converter is at `source`."""
        ports = bridge.free_port(), bridge.free_port()
        process = subprocess.Popen(
            [BUILT, "serve", "--file", file, *addresses(*ports, source), *words],
            stdin=subprocess.DEVNULL,
            stdout=subprocess.PIPE,
            stderr=subprocess.PIPE,
            text=True,
        )
        self.addCleanup(process.kill)
        return process, *ports
