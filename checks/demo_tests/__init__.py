"""Shows that `weighbridge-demo` plays a whole bridge by one command. The first weighing comes within a minute, none is refused as unstable, and at its end no process is left.

Each module is a part, and `-k test_PART.` picks it:

- day: two demos run at once, from this checkout. The check weighs each vehicle of the day 1.5 s after it stops, 30 at each demo. Two busy loops run during half
  of them. None is refused, and each counter has ten readings for each second. Page, paper and each legal text say DEMO.
- ends: Ctrl-C, SIGTERM and SIGHUP end all of it within ten seconds, print where the journal is, and leave no process. `weighbridge check` finds that journal
  sound. If a part is killed, the demo names it with its last lines, ends the others, and ends with status 1. If the demo itself is killed, its parts end. A part
  that hangs delays no end.
- folder: a second start in its folder continues. The demo refuses a folder with other files, and the folder of a demo that runs. As installed, it works for a user
  without root.
- start: without a built program it prints two lines, builds nothing and ends with status 2. It opens a browser only on a desktop. The counter refuses a setup with
  `demo = true` and without the serial DEMO. It warns of that serial without `demo = true`. The unit tests are here too.
- doors: the pages refuse requests of other sites, other names of the machine and loads that are none. `clients/answers.py` plays its table of answers.
- page: both pages in Chromium: buttons, slider, the day, a wrong plate, links, at 360, 1280 and 1920 px, light and dark, in four languages.

WEIGHBRIDGE_PROGRAM and WEIGHBRIDGE_CONVERTER_PROGRAM name other built programs than those in crates/. CHECKS_PICTURES names a folder for pictures of both pages.
"""
