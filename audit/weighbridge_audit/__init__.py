"""Keeps the audit trail of a bridge: starts, setups, zero, calibrations, purges, programs, versions, restores and jumps of the clock.

The system's journal forgets old lines. This trail stays. A timer starts `collect` every five minutes. Nothing on the way of a weighing waits for it.

`trail` has the file: lines that are only added, each chained to the one before by its digest. `deciding` is the state machine: it gets what a look saw, and returns
the events that follow. `saying` recognizes the lines of the system's journal. `reading` takes values out of the files of a bridge. `world` reads this machine, and
`looking` is one look. `showing` prints the trail for an inspector.

All events of a look are one line, with the place in the system's journal up to which they were read. So there is one write to get right: a line is there as a whole,
or it isn't there, and then the next look sees the same again. Nothing that was written is ever changed.
"""
