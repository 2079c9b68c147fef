"""The command line."""

import argparse
import asyncio
import contextlib
import os
import signal
import sys
from collections.abc import Iterator, Sequence
from pathlib import Path

from weighbridge_paper.reader import Address, SetupFault, trouble_of_folder

from .boards import Sender, open_board
from .connections import Connections, listen
from .counter import Counter
from .notifying import notify
from .ports import open_port
from .refusals import FILE, catalogue
from .routes import Routes
from .setup import Setup, gaps_of, read_setup, warning_of

FOLDER = Path(__file__).resolve().parent.parent
END_OF_ACT_WITHIN = 3.0  # seconds
END_OF_FILES_WITHIN = 1.0
ABOUT = """Stands between the service of a weighbridge and everybody: holds its one terminal, and gives pages, tills, displays and monitoring what they ask.
It judges nothing and stores nothing legal, and may be killed at any time."""
EXAMPLE = """example:
  weighbridge-counter /etc/weighbridge-counter.toml           serve; the page is then at the address after `listen`
  weighbridge-counter --check /etc/weighbridge-counter.toml   serve nothing; say each mistake of the setup, or where the page will be

status: 0 ended by a signal, or the setup is in order, 1 an address, a folder, a file or the words of a language can't be used, 2 the words or the setup are refused"""


def words_of(given: list[str]) -> argparse.Namespace:
    words = argparse.ArgumentParser(
        "weighbridge-counter",
        description=ABOUT,
        epilog=EXAMPLE,
        formatter_class=argparse.RawDescriptionHelpFormatter,
    )
    words.add_argument(
        "setup",
        metavar="SETUP",
        type=Path,
        help="the setup, a TOML file; its example says each key",
    )
    words.add_argument(
        "--check",
        dest="only_check",
        action="store_true",
        help="read the setup, try its folders, and end",
    )
    return words.parse_args(given)


@contextlib.contextmanager
def of_address(key: str, address: Address) -> Iterator[None]:
    """Name the key and the address in the OSError of a listener that can't be opened."""
    try:
        yield
    except OSError as fault:
        why = os.strerror(fault.errno) if fault.errno else str(fault)
        raise OSError(
            f"{key}: {address[0]}:{address[1]} can't be used: {why}; stop the program that listens there, or name another port"
        ) from None


async def run_all(counter: Counter, senders: Sequence[Sender]) -> None:
    await asyncio.gather(counter.run(), notify(), *(it.run() for it in senders))


async def serve(setup: Setup) -> None:
    counter = Counter(setup)
    with of_address("listen", setup.listen):
        connections = Connections(counter.counts)
        await listen(Routes(counter, FOLDER).application(), setup.listen, connections)
    ports = []
    for port in setup.ports:
        with of_address(f"port {port.name}", port.listen):
            ports.append(await open_port(counter.terminal, port))
    senders = []
    for board in setup.boards:
        with of_address(f"scoreboard {board.name}", board.listen or ("", 0)):
            senders.append(await open_board(counter.terminal, board, setup.interval))
    for port, listener in zip(setup.ports, ports):
        print(f"counter: port {port.name} on {port.listen[0]}:{port.listen[1]}", file=sys.stderr)
    for board in setup.boards:
        where = board.device or "{}:{}".format(*(board.listen or ("", 0)))
        print(f"counter: scoreboard {board.name} on {where}: {board.form}", file=sys.stderr)
    print(f"counter: http://{setup.listen[0]}:{setup.listen[1]}/", file=sys.stderr, flush=True)
    stopped = asyncio.Event()
    for it in (signal.SIGTERM, signal.SIGINT):
        asyncio.get_running_loop().add_signal_handler(it, stopped.set)
    running = asyncio.ensure_future(run_all(counter, senders))
    stopping = asyncio.ensure_future(stopped.wait())
    await asyncio.wait([running, stopping], return_when=asyncio.FIRST_COMPLETED)
    if counter.acts.tasks:
        await asyncio.wait(counter.acts.tasks, timeout=END_OF_ACT_WITHIN)
    await asyncio.get_running_loop().run_in_executor(None, counter.printing.end)
    with contextlib.suppress(asyncio.TimeoutError):
        await asyncio.wait_for(counter.files.bring(), END_OF_FILES_WITHIN)
    if running.done():
        running.result()


def check(path: Path, setup: Setup, misfitting: Sequence[str]) -> int:
    """Say where the page of a setup without a mistake will be, or which folder of it can't be used, and which languages have wrong placeholders."""
    folders = [("state", setup.state)]
    if setup.papers is not None:
        folders.append(("the spool of papers", setup.papers.spool))
    troubles = [(key, it) for key, folder in folders if (it := trouble_of_folder(folder))]
    for key, trouble in troubles:
        print(
            f"weighbridge-counter: {path}: {key}: {trouble}: the counter couldn't keep its files; repair that, or name another folder",
            file=sys.stderr,
        )
    for line in misfitting:
        print(f"weighbridge-counter: {line}", file=sys.stderr)
    if not troubles and not misfitting:
        print(f"{path}: in order; the page will be at http://{setup.listen[0]}:{setup.listen[1]}/")
    return int(bool(troubles or misfitting))


def warn(line: str) -> None:
    print(f"weighbridge-counter: warning: {line}", file=sys.stderr, flush=True)


def main(given: list[str] | None = None) -> int:
    words = words_of(sys.argv[1:] if given is None else given)
    try:
        catalogue()
    except (OSError, ValueError) as fault:
        print(
            f"weighbridge-counter: {FILE}: the words of the refusals can't be read ({fault}); install the package again",
            file=sys.stderr,
        )
        return 2
    try:
        setup = read_setup(words.setup, FOLDER / "web")
        lacking, misfitting = gaps_of(FOLDER / "web", setup.languages)
        if (warning := warning_of(setup, words.setup)) is not None:
            warn(warning)
        for line in lacking:
            warn(line)
        if words.only_check:
            return check(words.setup, setup, misfitting)
        for line in misfitting:
            warn(line)
        asyncio.run(serve(setup))
    except SetupFault as fault:
        for line in fault.mistakes:
            print(f"weighbridge-counter: {line}", file=sys.stderr)
        return 2
    except OSError as fault:
        print(f"weighbridge-counter: {fault}", file=sys.stderr)
        return 1
    return 0


if __name__ == "__main__":
    sys.exit(main())
