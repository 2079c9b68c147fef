"""A small disk in memory, for what happens on one that is full or read-only. Only root can mount it."""

import os
import subprocess
from contextlib import suppress

from checks.lib.bridge import Closing


class SmallDisk(Closing):
    """A disk of this size at a new folder. A check fills it, or makes it read-only."""

    def __init__(self, folder: str, size: str) -> None:
        """Mount it. Raise CalledProcessError if this user can't."""
        self.folder = folder
        os.mkdir(folder, 0o700)
        self.mount("-t", "tmpfs", "-o", f"size={size},mode=700", "tmpfs", folder)

    def mount(self, *words: str) -> None:
        subprocess.run(["mount", *words], check=True, capture_output=True)

    def fill(self) -> None:
        with open(f"{self.folder}/fill", "wb", buffering=0) as file, suppress(OSError):
            while file.write(b"x" * 4096):
                pass

    def empty(self) -> None:
        os.unlink(f"{self.folder}/fill")

    def make_read_only(self) -> None:
        self.mount("-o", "remount,ro", self.folder)

    def make_writable(self) -> None:
        self.mount("-o", "remount,rw", self.folder)

    def close(self) -> None:
        subprocess.run(["umount", "--lazy", self.folder], check=False)
