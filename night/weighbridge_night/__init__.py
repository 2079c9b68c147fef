"""Looks after a bridge at night: copies the journal, checks the copy, exports both tables, keeps copies, and purges.

The morning it is made for: a clerk comes to a bridge with one small PC under a desk, where nobody knows Linux. The journal's copies of the night are on a USB
disk and on a host elsewhere, each checked by two programs. If something failed, one file says in words what, since which night, and what to do. The clerk
needn't have typed anything, and needn't have been there.

The night never writes the journal. It reads its files, and works on a copy. A purge is the office's own request, as a person would send it.

`night` does one step after the other. `setup` reads the file of the setup. `keep` has the names of copies, and the rule which of them stay. `copying` reads
the journal while it is served. `programs` runs other programs, each with its time. `office` asks the service. `files` makes each change of a disk. `folder`
and `remote` are the places of copies. `last` is the file that the morning reads.
"""
