"""Each change that the night makes on a disk. A new file has a temporary name until the disk has it."""

import hashlib
import json
import os
import shutil
from collections.abc import Iterator
from typing import Any

CHUNK = 1 << 20
# Left free on a disk, so that others can still write.
SPARE = 64 << 20


class Fault(Exception):
    """A failure, in the words that the morning reads."""


class LeftOut(Exception):
    """Why a step wasn't done, although nothing failed."""


def fault_of(path: str, error: OSError, todo: str) -> Fault:
    """Return the fault for a call that failed at this path."""
    return Fault(f"{path}: {error.strerror or error}; {todo}")


def sync_folder(path: str) -> None:
    handle = os.open(path, os.O_RDONLY | os.O_DIRECTORY)
    try:
        os.fsync(handle)
    finally:
        os.close(handle)


def chunks(path: str) -> Iterator[bytes]:
    with open(path, "rb") as file:
        while found := file.read(CHUNK):
            yield found


def digest_of(path: str) -> str:
    it = hashlib.sha256()
    for chunk in chunks(path):
        it.update(chunk)
    return it.hexdigest()


def digest_on_disk(path: str) -> str:
    """Return the digest of what the disk has. The kernel's own copy of the file is dropped first."""
    handle = os.open(path, os.O_RDONLY)
    try:
        os.posix_fadvise(handle, 0, 0, os.POSIX_FADV_DONTNEED)
    finally:
        os.close(handle)
    return digest_of(path)


def copy_synced(from_path: str, to_path: str) -> None:
    """Copy a file, for its owner only, and wait until the disk has it."""
    handle = os.open(to_path, os.O_WRONLY | os.O_CREAT | os.O_EXCL, 0o600)
    with open(handle, "wb") as to:
        for chunk in chunks(from_path):
            to.write(chunk)
        to.flush()
        os.fsync(to.fileno())


def write_whole(path: str, text: str, mode: int = 0o600) -> None:
    """Put this text into the place of the file, or leave the file as it was."""
    new = f"{path}.new"
    if os.path.lexists(new):
        os.unlink(new)  # of a night that was killed
    handle = os.open(new, os.O_WRONLY | os.O_CREAT | os.O_EXCL, mode)
    with open(handle, "w", encoding="utf-8") as file:
        os.fchmod(file.fileno(), mode)
        file.write(text)
        file.flush()
        os.fsync(file.fileno())
    os.rename(new, path)
    sync_folder(os.path.dirname(path))


def read_json(path: str) -> dict[str, Any]:
    """Return what the file has. A file that isn't there, or has something else, has nothing."""
    try:
        with open(path, encoding="utf-8") as file:
            found = json.load(file)
    except (OSError, ValueError):
        return {}
    return found if isinstance(found, dict) else {}


def remove_folder(path: str) -> None:
    """Remove a folder of the night's own. The next night removes the rest after a kill."""
    if os.path.islink(path) or not os.path.isdir(path):
        os.unlink(path)
    else:
        shutil.rmtree(path)
