"""Shows that a wrong use of a script ends with a status, and with a line that names the mistake and the program, never with a traceback.

The scripts are those that people call: readers, counter, papers, demo, inspection, clients, head office, packaging and tools. The two proved programs have their
cases in checks/program. A use that waits, as a client does whose office isn't there, must name the address that it waits for.
"""

import os
import re
import secrets
import socket
import subprocess
from pathlib import Path

from checks.lib.case import Check

from checks import TOP

WITHIN = 20  # seconds
# No message may have these, because they speak of the program's inside.
INSIDE = re.compile(
    r"Traceback|unbound variable|\[Errno|syntax error|command not found|: line \d+: "
)
# Each line is a use: its status, what its message has, and the words. `none` is a file that is missing, `one` has the one byte x, TAKEN is a port in use, and nothing names NOWHERE.
USES = TOP / "checks" / "data" / "wrong_uses.txt"


class WrongUses(Check):
    """Each line of checks/data/wrong_uses.txt, in a folder with the files that they name."""

    needs = ("aiohttp", "prometheus_client", "reportlab", "qrcode", "curl")
    seconds = 60

    def setUp(self) -> None:
        self.box = Path(self.folder())
        self.port = self.enterContext(socket.create_server(("127.0.0.1", 0))).getsockname()[1]
        (self.box / "folder").mkdir()
        for name, content in (
            ("one", b"x"),
            ("empty", b""),
            ("latin.toml", 'company = "Müller"'.encode("latin-1")),
            ("paper.toml", f'spool = "{self.box}/spool"\n'.encode()),
            ("badly.toml", b'state = "one/x"\n'),
            ("taken.toml", f'state = "state"\nlisten = "127.0.0.1:{self.port}"\n'.encode()),
        ):
            (self.box / name).write_bytes(content)

    def use(self, status: int, wanted: str, words: list[str]) -> None:
        """Run a use, and check how it ends."""
        kept = {name: text for name, text in os.environ.items() if not name.startswith("PG")}
        office = {"WEIGHBRIDGE": "http://127.0.0.1:1", "WEIGHBRIDGE_SECONDS": "2"}
        with self.subTest(" ".join(words)):
            it = subprocess.run(
                [TOP / words[0], *words[1:]],
                cwd=self.box,
                stdin=subprocess.DEVNULL,
                capture_output=True,
                text=True,
                timeout=WITHIN,
                env={**kept, **office, "PYTHONDONTWRITEBYTECODE": "1"},
            )
            said = " ".join(it.stderr.split())
            self.assertEqual(status, it.returncode, said[-300:])
            self.assertRegex(said, wanted)
            self.assertNotRegex(it.stderr + it.stdout, INSIDE)

    def test_uses(self) -> None:
        before = sorted(it.name for it in self.box.iterdir())
        for line in USES.read_text(encoding="utf-8").splitlines():
            line = line.replace("TAKEN", str(self.port)).replace("NOWHERE", secrets.token_hex(8))
            status, wanted, words = (it.strip() for it in line.split(" | "))
            self.use(int(status), wanted, words.split())
        after = sorted(it.name for it in self.box.iterdir() if it.name not in ("spool", "state"))
        self.same("none of them made a file here", before, after)
