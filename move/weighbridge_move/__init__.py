"""Moves a lost bridge to another machine, from a copy of the night and the archive of the settings.

The morning it is made for: the PC under the desk doesn't start at seven, lorries queue, and nobody there knows Linux. A spare PC has the packages. The operator plugs
in the USB disk with the copies, runs one command, and weighs.

A number is given once, because the serial and the number together name a ticket. So a copy continues only if the operator says that nothing was stored after it, and gives the
greatest number that anybody knows. Otherwise a journal begins under a serial that was never used. The program then says which numbers are missing.

`finding` finds copies and archives in a folder. `copied` examines a copy. `entries` reads an export. `archive` reads the settings, and has the list of what may be in them. `editing`
writes the new serial into setups. `looking` gathers what a decision needs, and `deciding` decides: it has no clock, disk or program. `moving` does the steps, and notes each before it
begins. `report` has the words for the operator and the inspector. `world` is the machine.
"""
