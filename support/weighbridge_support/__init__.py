"""Gathers what somebody elsewhere needs to know of a bridge that doesn't work, as one text file, without plates and keys.

The moment it is made for: a clerk is on the telephone with a service company. Lorries wait. The clerk types one command, reads the file, and sends it. The
company sees versions, setup, units, the last hour's lines, health, the check, sizes and the clock, and asks no more questions.

Nothing is changed, and nothing is sent. A part that can't be had says why, and the others are there all the same. The journal is never read: the check is the
office's own answer. `gathering` has the parts. `hiding` removes plates, keys and secrets. `world` reads this machine.
"""
