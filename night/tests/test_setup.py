"""Shows that a setup's mistakes are all named at once, and that such a setup ends with status 2."""

import os
import subprocess
import tempfile
import unittest

from tests.played import TOP
from weighbridge_night.setup import GB, Refused, setup_of

GOOD = """
bridge = "WB01"
purge = true
[[to]]
kind = "folder"
path = "/srv/copies"
most_gb = 20
[[to]]
kind = "disk"
label = "WEIGHBRIDGE"
path = "/mnt/weighbridge-night"
most_gb = 20
[[to]]
kind = "ssh"
host = "backup.example"
user = "bridge"
folder = "copies"
most_gb = 5
"""


class SetupTest(unittest.TestCase):
    def faults(self, text: str) -> list[str]:
        with self.assertRaises(Refused) as caught:
            setup_of(text)
        return caught.exception.faults

    def test_a_setup(self) -> None:
        it = setup_of(GOOD)
        self.assertEqual([one.kind for one in it.places], ["folder", "disk", "ssh"])
        self.assertEqual(it.places[0].most_bytes, 20 * GB)
        self.assertEqual((it.office, it.purge), ("127.0.0.1:880", True))
        self.assertEqual(it.places[2].title, "ssh bridge@backup.example:copies")

    def test_each_mistake_is_named(self) -> None:
        mistakes = {
            'bridge = "WB01"': ('bridge = "../x"', "bridge: '../x'; write"),
            "purge = true": ("", "purge: it is missing; write true"),
            'kind = "folder"': ('kind = "tape"', "[[to]] 1: kind: 'tape'; write"),
            'path = "/srv/copies"': ('path = "copies"', "[[to]] 1: path: 'copies'; write"),
            'most_gb = 20\n[[to]]\nkind = "disk"': (
                'most_gb = 0\n[[to]]\nkind = "disk"',
                "[[to]] 1: most_gb: 0; write",
            ),
            'label = "WEIGHBRIDGE"': ('label = "a/b"', "[[to]] 2: label: 'a/b'; write"),
            'host = "backup.example"': ('host = "-oProxy"', "[[to]] 3: host: '-oProxy'; write"),
            'user = "bridge"': ('user = "a b"', "[[to]] 3: user: 'a b'; write"),
            'folder = "copies"': ('folder = "a b"', "[[to]] 3: folder: 'a b'; write"),
            "most_gb = 5": ("most_gb = 5\nport = 0", "[[to]] 3: port: 0; write"),
            "most_gb = 5\n": ("most_gb = 5\nkeep = 3\n", "[[to]] 3: keep: no such key"),
        }
        for old, (new, wanted) in mistakes.items():
            self.assertEqual(GOOD.count(old), 1, old)
            faults = self.faults(GOOD.replace(old, new))
            self.assertEqual(len(faults), 1, faults)
            self.assertTrue(faults[0].startswith(wanted), faults)

    def test_a_mistake_says_what_to_write(self) -> None:
        last = 'user = "bridge"\nfolder = "copies"\nmost_gb = 5'
        for old, new, wanted in (
            ("purge = true", "pruge = true", "pruge: no such key; write purge; the keys are"),
            ("purge = true", 'purge = "false"', "purge: 'false'; write true to .* without quotes"),
            (last, last.replace("5", '"5"'), "3: most_gb: '5'; write .* to 10000, without quotes"),
            (last, last.replace("= 5", "= 0"), "3: most_gb: 0; write .* 1 to 10000$"),
            ('"WB01"', '"QB 7"', "bridge: 'QB 7'; write .* without blanks$"),
            ('"/srv/copies"', '"copies"', "1: path: 'copies'; write .* from / on"),
            ('"/srv/copies"', "7", "1: path: 7; write .* in quotes"),
            ('kind = "folder"', "", "1: kind: it is missing; write"),
            (
                "/srv/copies",
                "/var/lib/weighbridge/x",
                r"\[\[to\]\] 1: path: /var/lib/weighbridge/x is in the journal's folder, with which",
            ),
        ):
            self.assertEqual(GOOD.count(old), 1, old)
            faults = self.faults(GOOD.replace(old, new))
            self.assertRegex(faults[0], wanted)
        one = 'bridge = "B"\npurge = false\n[to]\nkind = "folder"\npath = "/srv/x"\nmost_gb = 1\n'
        self.assertRegex("".join(self.faults(one)), "^to: it has one bracket; write \\[\\[to\\]\\]")
        self.assertRegex(
            self.faults("most_gb = 20 GB")[0],
            "it is no TOML: .*; write texts in quotes, and numbers",
        )

    def test_all_mistakes_come_at_once(self) -> None:
        text = GOOD.replace("WB01", "").replace("/srv/copies", "x").replace("= 5", "= true")
        self.assertEqual(
            [it.split(";")[0] for it in self.faults(text)],
            ["bridge: ''", "[[to]] 1: path: 'x'", "[[to]] 3: most_gb: True"],
        )

    def test_no_places_and_places_twice(self) -> None:
        self.assertEqual(
            self.faults('bridge = "B"\npurge = false'),
            ["to: there is no place for copies; write [[to]] above each place"],
        )
        twice = GOOD + '[[to]]\nkind = "folder"\npath = "/srv/copies"\nmost_gb = 1\n'
        self.assertEqual(
            self.faults(twice), ["to: folder /srv/copies is there twice; remove one of them"]
        )

    def test_no_toml(self) -> None:
        self.assertTrue(self.faults("bridge")[0].startswith("it is no TOML"))

    def test_the_program_ends_with_status_2(self) -> None:
        program = os.path.join(TOP, "night", "weighbridge-night")
        with tempfile.TemporaryDirectory() as folder:
            path = os.path.join(folder, "setup.toml")
            with open(path, "w", encoding="ascii") as file:
                file.write("purge = 1\n")
            for words in (["run"], ["list"], ["--check"]):
                it = subprocess.run(
                    [program, *words, "--setup", path, "--state", folder],
                    capture_output=True,
                    text=True,
                )
                self.assertEqual((it.returncode, it.stdout), (2, ""))
                self.assertEqual(it.stderr.count(f"weighbridge-night: {path}: "), 3)
            self.assertEqual(sorted(os.listdir(folder)), ["last.json", "setup.toml"])
            it = subprocess.run([program], capture_output=True, text=True)
            self.assertEqual(it.returncode, 2)
            it = subprocess.run(
                [program, "run", "--setup", "/none"], capture_output=True, text=True
            )
            self.assertEqual(it.returncode, 2)


if __name__ == "__main__":
    unittest.main()
