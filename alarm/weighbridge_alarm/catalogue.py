"""The words of each fault: what is wrong, what to do, and where to read more. Another language would have another such table.

The names of the first part are those of the counter's `/health`.
"""

from dataclasses import dataclass

CALL = "If that doesn't help, call the person who looks after this PC."


@dataclass(frozen=True)
class Words:
    """`short` and `act` are for an SMS. `stops` is true if no vehicle can be weighed. A `loud` fault comes before others. `covers` names those that it explains."""

    short: str
    act: str
    what: str
    todo: str
    page: str
    stops: bool = False
    loud: bool = False
    covers: tuple[str, ...] = ()


CATALOGUE = {
    "terminal": Words(
        "Service down",
        "restart the PC, bridge empty",
        "The weighing service doesn't answer. No vehicle can be weighed.",
        f"Empty the bridge, restart the PC, and set the zero (F9). {CALL}",
        "troubleshooting.md#the-service-doesnt-start",
        stops=True,
        covers=("weight", "office", "unit"),
    ),
    "weight": Words(
        "No weight",
        "check power and cable of the weighing device",
        "The bridge shows no weight. No vehicle can be weighed.",
        f"Check that the weighing device has power, and that its cable to this PC is plugged in. {CALL}",
        "troubleshooting.md#no-weight",
        stops=True,
        covers=("unit",),
    ),
    "office": Words(
        "Weighings can't be stored",
        "restart the PC, bridge empty",
        "The part of the service that stores weighings doesn't work. No vehicle can be weighed.",
        f"Empty the bridge, restart the PC, and set the zero (F9). {CALL}",
        "troubleshooting.md#store-faults",
        stops=True,
    ),
    "clock_jumped": Words(
        "The PC's clock jumped",
        "look at its date and time first",
        "The clock of this PC was put while the service ran. No vehicle can be weighed.",
        "Don't restart the PC while its clock is wrong: set the clock. If it is right now, empty the"
        f" bridge, restart the PC, and set the zero (F9). {CALL}",
        "operating.md#if-the-clock-jumped",
        stops=True,
        covers=("office",),
    ),
    "zero": Words(
        "Zero isn't set",
        "empty the bridge, press F9",
        "The zero hasn't been set since the service started.",
        "Empty the bridge, and press F9 on the clerk's page.",
        "operating.md#set-the-zero",
    ),
    "tare_left": Words(
        "A tare is left",
        "clear the tare before weighing",
        "A tare may be left at the scale from an earlier weighing.",
        "Look at the tare on the clerk's page before you weigh. If this stays, restart the counter.",
        "counter_reference.md#health-and-metrics",
    ),
    "lists": Words(
        "Lists incomplete",
        "leave the bridge empty for a minute",
        "The clerk's lists may lack a weighing. The journal has it.",
        "Leave the bridge empty for a minute. The counter then reads the lists again.",
        "counter_reference.md#health-and-metrics",
    ),
    "journal_changed": Words(
        "Another journal is in use",
        "find out who changed it",
        "The service uses another journal than before, or one that lacks entries.",
        "Find out who changed it. Then close the bar on the clerk's page.",
        "troubleshooting.md#messages-on-the-clerks-page",
    ),
    "papers": Words(
        "Printer fails",
        "check paper and cable",
        "A slip or ticket wasn't printed.",
        "Check the printer's power, paper and cable. The clerk's page shows what wasn't printed.",
        "troubleshooting.md#messages-on-the-clerks-page",
    ),
    "files": Words(
        "Disk takes no files",
        "check the disk of the PC",
        "The disk doesn't take the files of the clerk's page. Weighings with a tare are refused.",
        f"Remove files that nobody needs from the disk. {CALL}",
        "counter.md#if-its-disk-fails",
    ),
    "program_changed": Words(
        "Program file changed",
        "restart the service, bridge empty",
        "The file of the weighing program was changed while the service runs.",
        "If somebody installed a new version, empty the bridge, restart the PC, and set the zero (F9)."
        " Otherwise find out who changed it.",
        "inspection.md#which-program-is-installed",
    ),
    "room": Words(
        "Journal nearly full",
        "plan for it within 14 days",
        "The journal's free places last less than 14 days.",
        "Have somebody make room in the journal before it is full.",
        "operating.md#if-the-journal-is-full",
    ),
    "full": Words(
        "Journal full",
        "make room in the journal",
        "The journal is full. No vehicle can be weighed in.",
        "Weigh out the vehicles that are on site, and have somebody make room in the journal.",
        "operating.md#if-the-journal-is-full",
        stops=True,
        covers=("room",),
    ),
    # what the alarm finds without the counter's list
    "weighing": Words(
        "No vehicle can be weighed",
        "look at the clerk's page",
        "The counter reports that no vehicle can be weighed.",
        f"Look at the clerk's page. {CALL}",
        "counter_reference.md#health-and-metrics",
        stops=True,
    ),
    "counter": Words(
        "Clerk's page doesn't answer",
        "restart the PC, bridge empty",
        "The clerk's page doesn't answer.",
        f"Empty the bridge, restart the PC, and set the zero (F9). {CALL}",
        "troubleshooting.md#messages-of-the-alarm",
        covers=("unit",),
    ),
    "store": Words(
        "Journal can't be used",
        "check the disk of the PC",
        "The journal can't be read or written. No vehicle can be weighed.",
        f"Don't delete any file of the journal. {CALL}",
        "troubleshooting.md#store-faults",
        stops=True,
    ),
    "unit": Words(
        "A program has failed",
        "restart the PC, bridge empty",
        "A program of the bridge has failed, and isn't started again.",
        f"Empty the bridge, restart the PC, and set the zero (F9). {CALL}",
        "troubleshooting.md#the-service-doesnt-start",
    ),
    "night_check": Words(
        "JOURNAL MAY BE DAMAGED",
        "weigh nobody, call for help",
        "The nightly check of the journal found something wrong.",
        "Let nobody weigh, and switch nothing off. Call the person who is responsible for the instrument."
        " Nobody weighs again before that person and the inspector agree.",
        "troubleshooting.md#messages-of-the-night",
        loud=True,
    ),
    "night_step": Words(
        "Nightly copy has a fault",
        "see that the USB disk is plugged in",
        "A step of the nightly copy failed.",
        f"Check that the USB disk is plugged in. The next night tries again. {CALL}",
        "troubleshooting.md#messages-of-the-night",
    ),
    "copy_old": Words(
        "No copy of the journal for 2 days",
        "plug in the USB disk",
        "No sound copy of the journal was made in the last two days.",
        f"Plug in the USB disk, and leave the PC on at night. {CALL}",
        "operating.md#if-a-night-failed",
    ),
    "disk_low": Words(
        "Disk nearly full",
        "remove files from the PC",
        "A disk of this PC is nearly full.",
        "Remove files that nobody needs. Don't touch the folders of the weighbridge.",
        "troubleshooting.md#messages-of-the-alarm",
    ),
    "disk_read_only": Words(
        "Disk can't be written",
        "call for help, the disk may be broken",
        "A disk of this PC can't be written any more. It may be broken.",
        "Call the person who looks after this PC, and don't switch it off before.",
        "troubleshooting.md#messages-of-the-alarm",
        loud=True,
    ),
    "disk_unseen": Words(
        "Disk can't be read",
        "call for help, the disk may be broken",
        "A folder that the alarm watches can't be found.",
        f"See whether a disk was unplugged. {CALL}",
        "troubleshooting.md#messages-of-the-alarm",
    ),
    "clock": Words(
        "Clock may be wrong",
        "check the time and the network",
        "The PC's clock may be wrong, and tickets would have that time.",
        "Compare the time on the clerk's page with your watch. Check the network cable.",
        "troubleshooting.md#messages-of-the-alarm",
    ),
    "certificate": Words(
        "Certificate ends soon",
        "have it renewed",
        "A certificate has ended, ends within 21 days, or can't be read. Browsers then refuse the page.",
        "Have it renewed by the person who looks after the network.",
        "troubleshooting.md#messages-of-the-alarm",
    ),
    "receiver": Words(
        "A receiver gets no alarms",
        "see the mail account or gateway",
        "The alarm can't reach one of its receivers.",
        "Check the internet connection. Then run `weighbridge-alarm test`.",
        "troubleshooting.md#messages-of-the-alarm",
    ),
    "alarm": Words(
        "The alarm has a fault",
        "call for help",
        "A part of the alarm itself failed, so it may not see everything that is wrong.",
        "Send the details below to the person who looks after this PC.",
        "troubleshooting.md#messages-of-the-alarm",
    ),
}

UNKNOWN = Words(
    "Unknown fault",
    "look at the clerk's page",
    "The counter reports a fault that this alarm doesn't know.",
    f"Look at the clerk's page. {CALL}",
    "counter_reference.md#health-and-metrics",
)


def words_of(name: str) -> Words:
    return CATALOGUE.get(name, UNKNOWN)
