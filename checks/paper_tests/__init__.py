"""Shows that printouts are the office's texts letter for letter, and that each has one original whatever is killed. It also tries faults of printers and CUPS, and falsified texts.

Each module is a part, and `-k test_PART.` picks it:

- forms: ESC/POS on 80 and 58 mm, drawn as pictures by a printer that is played. PDF on A4, A5 and rolls, by pdftoppm and pdftotext. Each kind of text, the usual
  and the longest, is printed in four languages, as an original and again. The check reads the legal text back letter for letter, and examines large print,
  marks, QR code and fonts.
- faults: printers that are slow, full, without paper, open, offline, cut in the middle, switched off, gone and back, by TCP, USB and a serial line. The command is
  killed at any moment. Texts are falsified.
- cups, rate: a real CUPS whose backend writes a file, and 200 tickets a minute.
- counter, page: the counter over a real service prints automatically, shows each fault on the page, prints again when the clerk presses a button, and is killed in
  the middle. The page runs in Chromium. inspect/verify.py accepts the contents of the QR code.
- unit: the tests of printouts in the counter's own folder.

CHECKS_PICTURES names a folder for sheets of all printouts, and for the pictures of docs/counter.md.
"""
