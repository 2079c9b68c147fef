"""Shows what only the running program can: arguments, statuses, traces, files and their modes, faults of memory,
addresses, and the converter's ends. It takes a minute.

- The check compares arguments, help and statuses, and what the traces in checks/data/traces print.
- It makes checks and exports of a sound, a damaged and a missing journal, and a migration, and examines which files the
  migration makes and leaves.
- It runs `weighbridge-converter`, which is in the program's folder or is built, at a calibration.
- It runs the program out of memory.
- It shows on which addresses the program listens, and which is which.
- It shows what `serve --check` finds, and what `--verbose` explains.
- It shows the defaults of the retention, the capacity and the turns, the moment of an entry, and the modes of the files
  that the program makes.
- The converter is a FIFO whose writer leaves and comes back, a device that is unplugged, or a port on which nobody
  listens.
- It shows what clients still get at the end.

If a case fails, the check tries its test once more, in a new folder, and only that attempt counts. A machine with other
work may be too late once.

Usage: checks/program [PROGRAM]. Without PROGRAM it uses the one that the launcher `weighbridge` builds, if it isn't
built. The gate runs it.
"""
