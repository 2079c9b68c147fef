"""Namespaces of this process, so that no other one sees what a check changes on its network or among its mounts. They need root."""

import contextlib
import ctypes
import os
import subprocess
from collections.abc import Iterator

FLAGS = {"mnt": 0x0002_0000, "net": 0x4000_0000}


def call(name: str, *numbers: int) -> None:
    """Call a function of the C library that Python lacks before 3.12."""
    library = ctypes.CDLL(None, use_errno=True)
    if getattr(library, name)(*numbers):
        raise OSError(ctypes.get_errno(), f"{name}{numbers}")


@contextlib.contextmanager
def own(*kinds: str) -> Iterator[None]:
    """Give this process a network ("net") or mounts ("mnt") of its own, and return to those of before. It has one thread only."""
    folder = os.getcwd()
    before = {kind: os.open(f"/proc/self/ns/{kind}", os.O_RDONLY | os.O_CLOEXEC) for kind in kinds}
    call("unshare", sum(FLAGS[kind] for kind in kinds))
    if "mnt" in kinds:
        subprocess.run(["mount", "--make-rprivate", "/"], check=True)
    try:
        yield
    finally:
        for kind, handle in before.items():
            call("setns", handle, FLAGS[kind])
            os.close(handle)
        os.chdir(folder)
