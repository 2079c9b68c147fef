"""Copies in a folder of this machine, or on a disk that is mounted there."""

import os
import stat

from .files import (
    SPARE,
    Fault,
    copy_synced,
    digest_of,
    digest_on_disk,
    fault_of,
    remove_folder,
    sync_folder,
)
from .keep import Copy, copies_of, copy_of

# The names of a copy that isn't whole yet, and of one that is being removed.
NEW, OLD = ".new-", ".old-"
SUMS = "SHA256SUMS"
BY_LABEL = "/dev/disk/by-label"


def is_leftover(name: str) -> bool:
    """Return True if a night that was killed left this."""
    return name.startswith((NEW, OLD)) and copy_of(name[len(NEW) :]) is not None


class Folder:
    """A place of copies: a folder, with a folder for the bridge in it."""

    def __init__(self, root: str, bridge: str) -> None:
        self.root, self.own = root, os.path.join(root, bridge)

    def ready(self) -> None:
        """Raise a Fault if no copies can be kept here."""
        if not os.path.isdir(self.root):
            raise Fault(
                f"{self.root}: it isn't there, or is no folder; make it by"
                f" `install -d -o weighbridge-night -m 0700 {self.root}`"
            )
        if not os.access(self.root, os.W_OK | os.X_OK):
            raise Fault(
                f"{self.root}: the night can't write there; run `chown weighbridge-night {self.root}`, and name it in"
                " ReadWritePaths= of weighbridge-night.service"
            )
        if os.path.lexists(self.own):
            about = os.lstat(self.own)
            if not stat.S_ISDIR(about.st_mode) or about.st_dev != os.stat(self.root).st_dev:
                raise Fault(f"{self.own}: it is no folder of this disk; move it away")

    def open(self) -> list[str]:
        """Make the place ready, and remove what a night that was killed left. Return what can't be removed."""
        self.ready()
        left: list[str] = []
        try:
            if not os.path.isdir(self.own):
                os.mkdir(self.own, 0o700)
                sync_folder(self.root)
            for name in os.listdir(self.own):
                if is_leftover(name):
                    try:
                        remove_folder(os.path.join(self.own, name))
                    except OSError:
                        left.append(os.path.join(self.own, name))
        except OSError as error:
            raise fault_of(
                error.filename or self.own,
                error,
                "see whether the disk is full, broken or unplugged",
            ) from None
        return left

    def is_copy(self, copy: Copy) -> bool:
        """Return True if a folder with this name has the files and the bytes that its name says."""
        path = os.path.join(self.own, copy.name)
        if os.path.islink(path):
            return False
        try:
            with os.scandir(path) as found:
                sizes = {
                    it.name: it.stat(follow_symlinks=False).st_size
                    for it in found
                    if it.is_file(follow_symlinks=False)
                }
        except OSError:
            return False
        return SUMS in sizes and sum(sizes.values()) == copy.size

    def copies(self) -> list[Copy]:
        """Return the copies, the newest first."""
        self.ready()
        try:
            found = copies_of(os.listdir(self.own)) if os.path.isdir(self.own) else []
            return [it for it in found if self.is_copy(it)]
        except OSError as error:
            raise fault_of(self.own, error, "see whether the disk is broken or unplugged") from None

    def store(self, folder: str, copy: Copy) -> None:
        """Keep this folder as a copy. It has its name only once the disk has all of it."""
        target, new = os.path.join(self.own, copy.name), os.path.join(self.own, NEW + copy.name)
        names = sorted(os.listdir(folder))
        if os.path.lexists(target):
            self.compare(folder, target, names)
            return
        try:
            about = os.statvfs(self.own)
            free = about.f_bavail * about.f_frsize
            if free < copy.size + SPARE:
                raise Fault(
                    f"{self.root}: the disk is full: {free} bytes are free, and a copy needs {copy.size + SPARE};"
                    " make room, or set a smaller most_gb"
                )
            os.mkdir(new, 0o700)
            for name in names:
                copy_synced(os.path.join(folder, name), os.path.join(new, name))
            sync_folder(new)
            for name in names:
                if digest_on_disk(os.path.join(new, name)) != digest_of(os.path.join(folder, name)):
                    raise Fault(
                        f"{os.path.join(new, name)}: the disk returns other bytes than were written; replace the disk"
                    )
            self.ready()  # it is still the same disk
            os.rename(new, target)
            sync_folder(self.own)
        except OSError as error:
            self.drop(new)
            raise fault_of(
                error.filename or self.own,
                error,
                "see whether the disk is full, broken or unplugged",
            ) from None

    def drop(self, path: str) -> None:
        """Remove a copy that isn't whole. If that fails too, the next night removes it."""
        try:
            remove_folder(path)
        except OSError:
            pass

    def compare(self, folder: str, target: str, names: list[str]) -> None:
        """Raise a Fault if what has this name already isn't the same copy."""
        try:
            is_same = sorted(os.listdir(target)) == names and all(
                digest_of(os.path.join(target, it)) == digest_of(os.path.join(folder, it))
                for it in names
            )
        except OSError:
            is_same = False
        if not is_same:
            raise Fault(
                f"{target}: the name exists with other contents, so nothing was overwritten; move it away"
            )

    def remove(self, copy: Copy) -> None:
        """Remove a copy. It loses its name first, so that no part of it looks whole."""
        target, old = os.path.join(self.own, copy.name), os.path.join(self.own, OLD + copy.name)
        try:
            os.rename(target, old)
            sync_folder(self.own)
            remove_folder(old)
        except OSError as error:
            raise fault_of(error.filename or target, error, "remove it by hand") from None


class Disk(Folder):
    """A place of copies on a disk with a label. Nothing is written while another disk is mounted, or none."""

    def __init__(self, root: str, bridge: str, label: str, by_label: str = BY_LABEL) -> None:
        super().__init__(root, bridge)
        self.label, self.device = label, os.path.join(by_label, label)

    def number_of_device(self) -> int:
        """Return the number of the disk with this label."""
        about = os.stat(self.device)
        if not stat.S_ISBLK(about.st_mode):
            raise OSError(0, "it is no disk")
        return about.st_rdev

    def ready(self) -> None:
        try:
            os.listdir(self.root)  # lets an automount mount it
            mounted = os.stat(self.root).st_dev
        except FileNotFoundError:
            raise Fault(
                f"{self.root}: it isn't there; make it by `install -d {self.root}`, and see its line in /etc/fstab"
            ) from None
        except OSError as error:
            raise fault_of(
                self.root, error, f"plug in the disk {self.label}, and see its line in /etc/fstab"
            ) from None
        try:
            wanted = self.number_of_device()
        except OSError as error:
            raise fault_of(
                self.device,
                error,
                f"plug in a disk with the label {self.label}; `lsblk -o NAME,LABEL` shows the labels",
            ) from None
        if mounted != wanted:
            raise Fault(
                f"{self.root}: the disk {self.label} isn't mounted there, so nothing was written;"
                " see its line in /etc/fstab, and unplug other disks"
            )
        super().ready()
