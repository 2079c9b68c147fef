"""The words for the operator and the inspector."""

from weighbridge_night.keep import newest_sound
from weighbridge_night.programs import printable

from .deciding import BEGIN, MOMENT, Asked, Seen, missing, next_serial
from .editing import ALARM, COUNTER, NIGHT, PAPER
from .entries import Entry

MOST_SHOWN, MOST_LISTED = 200, 20


def standing(entries: list[Entry]) -> list[str]:
    """Return a line for each vehicle that was on site."""
    found = [
        f"  First {it.number}  {printable(it.plate)}  {it.moment.strftime(MOMENT)}  {it.gross} kg"
        for it in entries[:MOST_SHOWN]
    ]
    if len(entries) > MOST_SHOWN:
        found.append(f"  and {len(entries) - MOST_SHOWN} more; they are in journal.csv of the copy")
    return found


def counted(count: int, what: str) -> str:
    return f"{count} {what}" if count == 1 else f"{count} {what}s"


def facts(seen: Seen) -> list[str]:
    """Return what the copy has."""
    newest, journal = seen.copied.journal.newest, seen.copied.journal
    lines = [
        f"copy: {seen.copied.path}",
        f"moment of the copy: {seen.copy.moment.strftime(MOMENT)}",
        f"entries in the copy: {seen.copied.entries}, and the check says that they are sound",
        f"newest entry: {printable(str(newest)) if newest is not None else 'none'}",
        f"greatest number: {seen.copied.greatest}",
        f"serial of the entries: {', '.join(sorted(map(printable, journal.serials))) or 'none'}",
        f"on site when the copy was made: {counted(len(journal.open), 'vehicle')}",
    ]
    return lines + standing(journal.open)


def by_hand(asked: Asked, seen: Seen, has: set[str]) -> list[str]:
    """Return what the operator still has to do."""
    todo = [
        "Let every vehicle leave the bridge, and set the zero: press F9 on the clerk's page (operating.md, Set the zero).",
        "Unmount the disk with the copies, unplug it, and keep it as evidence. Never format it.",
    ]
    if asked.command == BEGIN:
        todo += [
            "Correct the list of vehicles above from newer slips and tickets. See which ones are really on site, and weigh each of"
            " them in again before it leaves.",
            "Collect each slip and ticket of the old serial with a greater number than the copy has. The inspector decides"
            " whether they count.",
            "Give this report to the inspector, who must agree to the new serial.",
        ]
        if any(it.startswith("etc/weighbridge-head-office") for it in has):
            todo.append(
                "Register the new serial at the head office (head_office_use.md, Register a new instrument or a new file)."
            )
    else:
        todo.append(
            "Tell the inspector that the machine was replaced. The values that were written down must be the same again."
        )
        if PAPER in has:
            todo.append(
                "Print no slip or ticket again that was printed before the loss. The list of printed originals is lost, so such a"
                " printout doesn't say that it is a copy."
            )
    todo.append(
        "If others use this machine, load the rules of the ports: `systemctl enable --now weighbridge-ports`."
    )
    if NIGHT in has:
        todo.append(
            "Give the night a new disk (install.md, Set up the night). Its setup is in place, so don't copy the example."
        )
    if ALARM in has:
        todo.append(
            "Try the alarm and start its timer (install.md, Set up the alarm). Its setup is in place."
        )
    if any(it.startswith("etc/weighbridge-head-office") for it in has):
        todo.append(
            "Start the timer of the head office (head_office.md, Set up each bridge). Its files are in place."
        )
    if "etc/msmtprc" in has:
        todo.append(
            "Install the program that sends mails: `apt-get install msmtp-mta`. Its file is in place."
        )
    if any(it.startswith("etc/nginx/") for it in has):
        todo.append(
            "Install nginx: `apt-get install nginx`. Its files for the clerk's page are in place."
        )
    if COUNTER in has and PAPER in has:
        todo.append("Print a test page on each printer (counter.md, Printers).")
    return [f"{number}. {it}" for number, it in enumerate(todo, 1)]


def report_of(asked: Asked, seen: Seen, began: str, has: set[str], notes: list[str]) -> str:
    """Return the whole report."""
    old = seen.plate.serial if seen.plate is not None else "unknown"
    if asked.command == BEGIN:
        lines = [
            "A journal under a new serial begins on this machine, because entries may be lost.",
            "",
            f"new serial: {asked.serial}",
            f"old serial: {old}",
            f"numbers of {old} that are known to be missing: {missing(seen.copied.greatest, known(asked, seen))}",
            f"evidence: the disk, and {asked.keep}/{seen.copy.name}",
        ]
    else:
        lines = [
            "The copy continues on this machine. The operator stated that nothing was stored after it.",
            "",
            f"serial: {old}",
            f"greatest number that is known: {asked.last}",
        ]
    lines += [f"the move began: {began}", *facts(seen)]
    if notes:
        lines += ["", "This failed:", *notes]
    lines += ["", "Do by hand:", *by_hand(asked, seen, has)]
    return "\n".join(map(printable, lines)) + "\n"


def known(asked: Asked, seen: Seen) -> int | None:
    """Return the greatest number that anybody knows: the operator, or another copy."""
    if asked.last is None and seen.greatest == seen.copied.greatest:
        return None
    return max(asked.last or 0, seen.greatest)


def listed(seen: Seen) -> list[str]:
    """Return a line for each copy on the disk."""
    folder = seen.copied.path.rpartition("/")[0]
    lines = [f"copies in {folder}: {len(seen.copies)}, the newest first"]
    own = (
        "the newest sound one"
        if seen.copy == newest_sound(seen.copies)
        else "the one that was given"
    )
    for it in seen.copies[:MOST_LISTED]:
        hours = round((seen.now - it.moment).total_seconds() / 3600)
        age = f"{counted(hours, 'hour')} old" if hours < 48 else f"{hours // 24} days old"
        mark = f", {own}" if it == seen.copy else ""
        lines.append(f"  {it.name}  {it.newest_in_words}, {age}{mark}")
    if len(seen.copies) > MOST_LISTED:
        lines.append(f"  and {len(seen.copies) - MOST_LISTED} more")
    return lines


def looked(asked: Asked, seen: Seen, faults: list[str]) -> str:
    """Return what `look` prints."""
    folder = asked.folder
    lines = listed(seen)
    lines += facts(seen) if seen.copied.is_whole else [f"copy: {seen.copied.path}"]
    if seen.archive is not None:
        lines.append(
            f"settings: {printable(seen.archive_path or 'of this machine')},"
            f" {counted(len(seen.archive.members), 'file')}"
        )
        lines += [f"  /{it}" for it in sorted(seen.archive.members)]
        versions = [f"{name} {it}" for name, it in sorted(seen.archive.versions.items())]
        lines.append(f"versions of the lost machine: {', '.join(versions) or 'unknown'}")
    if seen.plate is not None:
        lines.append(
            f"setup: serial {seen.plate.serial}, e {seen.plate.interval} kg, Max {seen.plate.most} kg"
        )
    if not seen.is_root:
        lines.append("only root can see whether this machine has a journal already")
    if faults:
        lines += ["", "Nothing can be moved yet:", *(f"- {it}" for it in faults)]
        return "\n".join(lines) + "\n"
    newest = seen.copied.greatest
    after = seen.copy.moment.strftime(MOMENT)
    if seen.local:
        after += f" ({seen.local} on the clock of this machine)"
    lines += [
        "",
        "Look for the greatest number on slips and tickets, at the tills and at the head office. Let every vehicle leave the bridge.",
        "",
        f"If it is {newest}, and it is certain that nothing was stored after {after}, run as root:",
        f"  weighbridge-move continue {folder} --last {newest} --nothing-later",
        "",
        "In every other case, agree with the inspector on a serial that was never used, and run as root, with that number:",
        f"  weighbridge-move begin {folder} --serial {next_serial(seen) or 'SERIAL'} --last NUMBER",
    ]
    if seen.contradicting:
        lines.append("")
        lines += [
            f"{it.name} shows entries that the chosen copy doesn't have, so only `begin` is possible"
            for it in seen.contradicting[:20]
        ]
    return "\n".join(lines) + "\n"
