"""Shows that the commands of docs/inspection.md verify a signed `SHA256SUMS`, refuse it if anything about it differs, and
name a changed file.

The differences are a byte, the key, the name or the purpose. The bill of materials names each crate. The check builds the packages of the counter and of
the head office, which need no proof.
"""

import hashlib
import json
import os
import re
import shutil
import subprocess
from pathlib import Path

from checks import TOP
from checks.lib.built_over import listed
from checks.lib.case import Check

SIGNER = "releases@wellumak.example"
PAGE_JS = "usr/share/weighbridge-counter/web/page.js"
EPOCH, MOMENT = "1795651200", "2026-11-26T00:00:00Z"


def typed(begin: str) -> str:
    """Return the command of the page that begins so, which is typed by root there."""
    page = (TOP / "docs/inspection.md").read_text(encoding="utf-8")
    part = page[page.index("## Which program is installed") : page.index("## Check a journal")]
    blocks = "\n".join(re.findall(r"(?s)```sh root\n(.*?)```", part))
    [command] = [line for line in blocks.splitlines() if line.startswith(begin)]
    return command


class SignedSums(Check):
    """A release folder with a signed list, and the bill of materials."""

    needs = ("dpkg-deb", "dh", "ssh-keygen", "the kit")
    seconds = 60

    def setUp(self) -> None:
        self.box = Path(self.folder())
        self.release, self.root = self.box / "release", self.box / "root"
        self.release.mkdir()
        self.root.mkdir()
        self.sums = self.release / "SHA256SUMS"
        for name in ("publisher", "stranger"):
            words = ["ssh-keygen", "-q", "-t", "ed25519", "-N", "", "-C", name, "-f", name]
            subprocess.run(words, cwd=self.box, check=True)

    def build(self, name: str, folder: str, **key: str) -> str:
        """Build a package into the release folder. Return what is reported."""
        words = [str(TOP / "packaging" / name), folder]
        others = {name: it for name, it in os.environ.items() if name != "WEIGHBRIDGE_SIGNING_KEY"}
        more = {**others, **key}
        ran = subprocess.run(words, cwd=self.box, env=more, capture_output=True, text=True)
        self.assertEqual(0, ran.returncode, ran.stderr)
        return ran.stderr.rstrip()

    def is_verified(self) -> bool:
        command = typed("ssh-keygen -Y verify")
        ran = subprocess.run(command, shell=True, cwd=self.release, capture_output=True)
        return ran.returncode == 0

    def named(self, command: str, folder: Path) -> list[str]:
        """Return the files that a command of the page names."""
        ran = subprocess.run(command, shell=True, cwd=folder, capture_output=True, text=True)
        return [re.sub(r":.*|^.*  ", "", line) for line in ran.stdout.splitlines()]

    def sign(self, key: str, purpose: str) -> None:
        words = ["ssh-keygen", "-q", "-Y", "sign", "-f", str(self.box / key), "-n", purpose]
        it = subprocess.run(words, input=self.sums.read_bytes(), capture_output=True, check=True)
        (self.release / "SHA256SUMS.sig").write_bytes(it.stdout)

    def test_release(self) -> None:
        unsigned = f"{self.sums} is not signed: WEIGHBRIDGE_SIGNING_KEY names no key"
        said = self.build("build_counter", str(self.release))
        self.same("without a key it says so", unsigned, said)
        self.holds("and signs nothing", not (self.release / "SHA256SUMS.sig").exists())
        said = self.build("build_head_office", "release", WEIGHBRIDGE_SIGNING_KEY="publisher")
        self.same("with a key it says nothing", "", said)
        packages = re.findall(r"\.deb$", self.sums.read_text(), re.M)
        self.same("each package is on the list", 2, len(packages))
        key = " ".join((self.box / "publisher.pub").read_text().split()[:2])
        signers = self.release / "allowed_signers"
        signers.write_text(f'{SIGNER} namespaces="weighbridge" {key}\n')
        self.holds("the signature is good", self.is_verified())
        self.show_packages()
        self.show_files()
        self.show_other_signatures(signers)

    def show_packages(self) -> None:
        command, [package] = typed("sha256sum -- "), self.release.glob("weighbridge-counter_*.deb")
        self.same("the packages are those of the list", [], self.named(command, self.release))
        other = shutil.copy(package, self.release / "weighbridge-counter_9.deb")
        found = self.named(command, self.release)
        self.same("a package of another name is named", [other.name], found)
        other.unlink()

    def show_files(self) -> None:
        for package in self.release.glob("*.deb"):
            subprocess.run(["dpkg-deb", "--extract", package, self.root], check=True)
        command = typed("sums=").replace("cd / ", f"cd {self.root} ")
        self.same("the files are those of the list", [], self.named(command, self.release))
        plain = [it for it in self.root.rglob("*") if it.is_file() and not it.is_symlink()]
        files = [it for it in plain if it.relative_to(self.root).parts[0] != "etc"]
        every = f"sha256sum --check --ignore-missing {self.sums}"
        ran = subprocess.run(every, shell=True, cwd=self.root, capture_output=True, text=True)
        self.same("the list has each of them", len(files), ran.stdout.count(": OK\n"))
        script = self.root / PAGE_JS
        script.write_bytes(script.read_bytes() + b" ")
        self.same("a changed file is named", [PAGE_JS], self.named(command, self.release))

    def show_other_signatures(self, signers: Path) -> None:
        command, [package] = typed("sha256sum -- "), self.release.glob("weighbridge-counter_*.deb")
        before, kept = self.sums.read_bytes(), bytearray(package.read_bytes())
        kept[5000] ^= 1
        package.write_bytes(kept)
        found = self.named(command, self.release)
        self.same("a changed package is named", [package.name], found)
        line = f"{hashlib.sha256(kept).hexdigest()}  {package.name}"
        self.sums.write_text(re.sub(rf"(?m)^.*  {re.escape(package.name)}$", line, before.decode()))
        found = self.named(command, self.release)
        self.same("with the list changed too, the package is on it", [], found)
        self.holds("but the signature is not of that list", not self.is_verified())
        self.sign("stranger", "weighbridge")
        self.holds("nor is a signature by another key accepted", not self.is_verified())
        self.sums.write_bytes(before)
        self.sign("publisher", "file")
        self.holds("nor one that was made for another purpose", not self.is_verified())
        self.sign("publisher", "weighbridge")
        signers.write_text(signers.read_text().replace("releases@", "others@", 1))
        self.holds("nor one of a signer who is not asked for", not self.is_verified())

    def test_bill_of_materials(self) -> None:
        words, epoch = [TOP / "packaging" / "sbom"], {**os.environ, "SOURCE_DATE_EPOCH": EPOCH}
        one, other = (
            subprocess.run(words, env=epoch, capture_output=True, check=True).stdout for _ in "12"
        )
        self.same("the bill of materials is the same bytes twice", one, other)
        bill = json.loads(one)
        refs = [it["bom-ref"] for it in bill["components"]]
        self.same("each component is there once", sorted(set(refs)), sorted(refs))
        named = {it for row in bill["dependencies"] for it in [row["ref"], *row["dependsOn"]]}
        self.same("dependencies that are no component", set(), named - {*refs, "wellumak"})
        made = {"weighbridge", "weighbridge_converter", "wb_terminal_c"}
        self.same("what is made and isn't there", set(), made - {*refs})
        crates = {name: line.partition(":")[2].split() for name, line in listed().items()}
        below = {name for it in refs for name in crates.get(it, [])}
        missing = {name for name in below if name not in refs and f"kit:{name}" not in refs}
        self.same("crates that aren't there", set(), missing)
        nothing = hashlib.sha256(b"").hexdigest()
        digests = [it["hashes"][0]["content"] for it in bill["components"] if "hashes" in it]
        self.holds("each component has sources", nothing not in digests)
        self.same("its moment", MOMENT, bill["metadata"]["timestamp"])
