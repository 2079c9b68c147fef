"""Shows that the head office names every way of tampering that docs/head_office_use.md lists, and that no role or bridge can do more than it may.

Each module is a part, and `-k test_PART.` picks it. `checks/head_office_functions`, `_inputs`, `_scripts` and `_upgrade` run one module each.

- loads, service, addresses: whole exports, the newest entries, cut, killed and forged ones, and those of a service that runs.
- tampering, followers, findings: what an intruder does to a journal, what is changed while it is migrated, and how a load names it.
- refusals, bounds: refused loads, and what comes in masses from one bridge.
- sums, years, pages, units: totals, tables of the years, dropped plates, the day's page, timers, mails, the package.
- receipts: what bridges keep of their loads, and what the head office finds if a superuser changed it.
- rights, backups, versions: roles, certificates, a German server, copies that are restored, a full disk, and offices of versions 1, 2 and 4.
- functions, inputs, scripts, upgrade: each SQL function by pgTAP, exports by chance, and each script with programs in its place that fail.

All run on a PostgreSQL cluster of their own, and each test in a copy of a new office. With HEAD_OFFICE_LOCALE=de_DE.UTF-8 server and clients speak German.
"""
