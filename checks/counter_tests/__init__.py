"""Shows the counter over a real service, with tills, displays, kills at random, and the clerk's page in a browser behind nginx.

Each module is a part, and `-k test_PART.` picks it:

- unit, package, languages: the tests and types of the counter's packages, its Debian package, and the words of each language.
- fanout: two tills, a display and a page at once. Each reply belongs to its own request, and a command that comes while the service or the counter is stopped
  is refused, and never acts later. A tare belongs to one weighing, whatever fails or is killed within it.
- lists, routes: texts pass byte for byte, and one key has one entry. A text that didn't pass is noticed as missing, and an export finds it. Every answer of the
  office and the counter, and every event, is as counter/openapi.json says.
- files: its own files on a disk that is full, read-only or slow, and the order in which they reach the disk. Only root can mount such a disk. After a purge, a
  new file or an older copy, the lists have what the journal has.
- page, looks, ages, page_behind_nginx: the page, in Chromium, works by keyboard only, at each size, in each language, light and dark. Requests are stored once,
  whatever is cut, killed or held. No weight is more than a second old, offline, suspended, or on a slow network.
- hurried: a clerk in a hurry, who hammers Enter, holds it, presses it on a question, clicks twice, or weighs on a bridge that is off zero.
- rows, access, tares, given, once: the lists, the page for screen readers, kept tares, goods and drivers, and vehicles that are weighed once.
- boards, erp, nginx: driver's displays, the programs of docs/erp.md, and requests that nginx refuses by the package's setup.
- costs: 20 pages and 200, at 10 and 50 readings a second.
- random: clients and moments at random, with kills and holds. The check compares each value, reply, entry, text and list with the journal and the readings.
- day, enemy, only with `--slow`: a day of thirty vehicles with eight faults, worked as the page says. In a day of sixty vehicles with twenty-one kinds of
  trouble, the clerk wants a false ticket and gets none. `--slow` also has clients at random for ten minutes, and more kills.
"""
