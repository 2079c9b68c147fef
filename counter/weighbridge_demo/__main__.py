"""The command line."""

import argparse
import asyncio
import contextlib
import os
import signal
import subprocess
import sys
from pathlib import Path

from .demo import Addresses, Demo, FolderFault, Programs, Wish, folder_of, held
from .parts import PartFault

FOLDER = Path(__file__).resolve().parent.parent
ENDED_BY = (signal.SIGINT, signal.SIGTERM, signal.SIGHUP)
ABOUT = """Plays a weighbridge: vehicles drive on, stand and drive off, and are weighed at the clerk's page of the real counter, by the real service. It needs no
scale, no set-up and no root. Each page and each paper says DEMO. Ctrl-C ends all of it."""
EXAMPLE = """examples:
  weighbridge-demo                        A day of twenty vehicles. Each waits until it is weighed.
  weighbridge-demo --empty                An empty bridge. Choose on its page what drives on.
  weighbridge-demo --folder practice      Keep the journal in this folder, and continue with it the next time.

status: 0 Ctrl-C ended it
        1 a part ended unexpectedly or couldn't start
        2 the options or the folder are refused, or a program isn't there"""


def say(line: str = "", into: int = 1) -> None:
    """Print a line. A terminal that was closed is no fault."""
    with contextlib.suppress(OSError):
        print(line, file=sys.stderr if into == 2 else sys.stdout, flush=True)


def tell(line: str) -> None:
    say(f"weighbridge-demo: {line}", 2)


def words_of(given: list[str]) -> argparse.Namespace:
    words = argparse.ArgumentParser(
        "weighbridge-demo",
        description=ABOUT,
        epilog=EXAMPLE,
        formatter_class=argparse.RawDescriptionHelpFormatter,
    )
    words.add_argument(
        "--folder",
        type=Path,
        metavar="FOLDER",
        help="where the journal, the setup and the logs are kept; a new temporary folder if it isn't given",
    )
    words.add_argument(
        "--empty", action="store_true", help="begin with an empty bridge, and play no day"
    )
    words.add_argument(
        "--quick", action="store_true", help="let vehicles come and go in a third of the time"
    )
    words.add_argument("--no-browser", action="store_true", help="open no browser")
    words.add_argument("--weighbridge", metavar="PROGRAM", help="run this weighbridge")
    words.add_argument("--converter", metavar="PROGRAM", help="run this weighbridge-converter")
    return words.parse_args(given)


def is_checkout() -> bool:
    return (FOLDER.parent / "crates.txt").is_file()


def programs_of(words: argparse.Namespace) -> Programs:
    """Return the programs: those that are given, else those that this checkout has built, else those of the package."""
    found = {}
    for name, given in (("weighbridge", words.weighbridge), ("converter", words.converter)):
        program = "weighbridge" if name == "weighbridge" else "weighbridge-converter"
        crate = program.replace("-", "_")
        built = FOLDER.parent / "crates" / crate / "out" / crate
        found[name] = given or (str(built) if is_checkout() else f"/usr/bin/{program}")
    return Programs(found["weighbridge"], found["converter"], str(FOLDER / "weighbridge-counter"))


def missing_of(programs: Programs) -> str | None:
    """Return the path of a program that isn't there or can't be run, or None."""
    for it in (programs.weighbridge, programs.converter):
        if not os.path.isfile(it) or not os.access(it, os.X_OK):
            return it
    return None


def tell_missing(path: str, is_given: bool) -> None:
    if is_given:
        tell(f"{path}: there is no such program, or it can't be run")
        tell("look at what you wrote after --weighbridge and --converter")
    elif is_checkout():
        tell(f"{path}: there is no such program, because it isn't built yet")
        tell(
            "run ./weighbridge --version and ./weighbridge-converter --version first: they prove and build both programs"
        )
    else:
        tell(f"{path}: there is no such program, because the package weighbridge isn't installed")
        tell("install it: apt-get install weighbridge")


def tell_addresses(addresses: Addresses, folder: Path) -> None:
    say("DEMO: the weights are simulated. Nothing here is a weighing.")
    say()
    say(f"  The clerk's page         {addresses.clerk}")
    say(
        f"  The played bridge        {addresses.bridge}     which vehicle is on it, and which plate to type"
    )
    say(f"  The counter, for a till  {addresses.clerk}  and {addresses.till} (MT-SICS)")
    say(f"  The folder               {folder}")
    say()
    say("Ctrl-C ends it.")


def open_browser(address: str) -> None:
    """Open the page if there is a desktop. Without one, its address was printed."""
    if os.environ.get("DISPLAY") or os.environ.get("WAYLAND_DISPLAY"):
        with contextlib.suppress(OSError):
            subprocess.Popen(
                ["xdg-open", address],
                stdin=subprocess.DEVNULL,
                stdout=subprocess.DEVNULL,
                stderr=subprocess.DEVNULL,
                start_new_session=True,
            )


async def serve(demo: Demo, has_browser: bool) -> int:
    """Run the demo until a signal or the end of a part. Return the status."""
    stopped = asyncio.Event()

    def stop() -> None:
        if stopped.is_set():
            demo.kill()  # a second Ctrl-C
        stopped.set()

    for it in ENDED_BY:
        if it == signal.SIGHUP and signal.getsignal(it) == signal.SIG_IGN:
            continue  # by nohup
        asyncio.get_running_loop().add_signal_handler(it, stop)
    signal.pthread_sigmask(signal.SIG_UNBLOCK, ENDED_BY)  # the launcher blocks them until now
    stopping = asyncio.ensure_future(stopped.wait())
    running = asyncio.ensure_future(run(demo, has_browser))
    try:
        await asyncio.wait([stopping, running], return_when=asyncio.FIRST_COMPLETED)
        if stopped.is_set():
            return 0
        try:
            await running
        except PartFault as fault:
            tell(str(fault))
        return 1
    finally:
        stopping.cancel()
        running.cancel()
        await asyncio.wait([running])
        await demo.end()


async def run(demo: Demo, has_browser: bool) -> None:
    say(f"Starting the converter, the service and the counter in {demo.folder}")
    addresses = await demo.start()
    say()
    tell_addresses(addresses, demo.folder)
    if has_browser:
        open_browser(addresses.clerk)
    await demo.ends_by_itself()


def main(given: list[str] | None = None) -> int:
    words = words_of(sys.argv[1:] if given is None else given)
    programs = programs_of(words)
    if (missing := missing_of(programs)) is not None:
        tell_missing(missing, missing in (words.weighbridge, words.converter))
        return 2
    try:
        folder = folder_of(words.folder)
        with held(folder):
            demo = Demo(programs, Wish(words.quick, words.empty), folder)
            try:
                status = asyncio.run(serve(demo, not words.no_browser))
            except OSError as fault:  # a full disk, or a folder that was removed
                tell(f"{folder}: {fault}; name a folder on another disk with --folder")
                status = 1
    except FolderFault as fault:
        tell(str(fault))
        return 2
    say()
    if demo.journal.exists():
        say(
            f"The journal is {demo.journal}, with {demo.journal.name}-wal next to it. It is checked by"
        )
        say(f"  {programs.weighbridge} check --file {demo.journal}")
    else:
        say(f"No journal was made. The logs are in {folder}")
    return status


if __name__ == "__main__":
    sys.exit(main())
