"""Shows what the launcher `weighbridge` proves, compiles and runs, with a kit that is played.

The played prover writes down each call, and fails where a test asks for it. So a case takes a second, and no crate is proved.
"""

import hashlib
import os
import shutil
import subprocess
import sys
import time
from pathlib import Path
from typing import ClassVar

from checks import TOP
from checks.lib.case import Check
from checks.lib.waiting import wait_until

KIT_LINE = "a played kit, logic 0123456789abcdef"
# Each crate, and those that it names: `regex` is the kit's. `lone` is below neither program.
CRATES = {
    "low": "",
    "left": "low regex",
    "right": "low",
    "lone": "",
    "weighbridge": "left right",
    "weighbridge_converter": "low",
}
BUILT = """// The program prints both.
KIT = "a kit that isn't named, since ./weighbridge didn't build it"
SOURCES = "not counted, since ./weighbridge didn't build it"
"""
# It writes its arguments down, holds while a file is there, and fails if a file names its crate.
PROVER = """#!{python}
import os, sys, time
kit, words = {kit!r}, sys.argv[1:]
name = words[words.index("--crate-name") + 1] if "--crate-name" in words else "link"
kind = name if words[0] == "check" or "--crate-checked" not in words and name != "link" else "compile"
with open(f"{{kit}}/calls", "a") as calls:
    print(kind if name != "link" else "link", *words, file=calls, flush=True)
while os.path.exists(f"{{kit}}/hold_{{kind}}"):
    time.sleep(0.02)
print(*(f"line {{it}}" for it in range(30)), sep="\\n")
print("fn one: proved\\nfn two: proved", flush=True)
if os.path.exists(f"{{kit}}/fail_{{name if name == 'link' else kind}}"):
    sys.exit("the goal is open")
made = words[words.index("-o") + 1]
with open(made, "w") as it:
    it.write("#!/bin/sh\\necho runs $0 \\"$@\\"\\n")
os.chmod(made, 0o755)
"""
RT = """#!/bin/sh
if [ "$1" = doc ]; then echo {kit}/README; exit; fi
echo "rt $*" >> {kit}/calls
cat
echo "run=ended" >&2
exit 3
"""


class Launcher(Check):
    """The launcher over a few small crates and a played kit."""

    seconds: ClassVar[int] = 15

    def setUp(self) -> None:
        folder, self.seen = Path(self.folder()), 0
        self.kit, self.top, tools = folder / "kit", folder / "top", folder / "tools"
        for it in (self.kit / "bin", self.top, tools):
            it.mkdir(parents=True)
        (self.kit / "KIT-ID").write_text(f"{KIT_LINE}\n")
        program = PROVER.format(python=sys.executable, kit=str(self.kit))
        for path, text in (
            (self.kit / "bin" / "rattle", program),
            (self.kit / "bin" / "rattle-link", program),
            (tools / "rt", RT.format(kit=self.kit)),
        ):
            path.write_text(text)
            path.chmod(0o755)
        shutil.copy(TOP / "weighbridge", self.top)
        (self.top / "weighbridge").chmod(0o755)
        (self.top / "weighbridge-converter").symlink_to("weighbridge")
        (self.top / "crates.txt").write_text(
            "# The crates, each with those that it names.\n"
            + "".join(f"{name}: {named}  # why\n" for name, named in CRATES.items())
        )
        for name in CRATES:
            for part in ("src", "specs", "proofs"):
                (self.top / "crates" / name / part).mkdir(parents=True)
            for file in ("src/lib.rt", "specs/one.antt", "proofs/one/two.antt"):
                (self.top / "crates" / name / file).parent.mkdir(exist_ok=True)
                (self.top / "crates" / name / file).write_text(f"fn of_{name}\n")
            if name.startswith("weighbridge"):
                self.source(name, "built.rt").write_text(BUILT)
        self.environment = {"PATH": f"{tools}:/usr/bin:/bin", "HOME": str(folder)}

    def source(self, crate: str, name: str = "lib.rt") -> Path:
        return self.top / "crates" / crate / "src" / name

    def begin(self, *words: str, name: str = "weighbridge", **more: str) -> "subprocess.Popen[str]":
        """Start the launcher. It gets a trace of one letter."""
        it = subprocess.Popen(
            [f"./{name}", *words],
            cwd=self.top,
            env={**self.environment, **more},
            stdin=subprocess.PIPE,
            stdout=subprocess.PIPE,
            stderr=subprocess.PIPE,
            text=True,
        )
        self.addCleanup(it.wait)
        self.addCleanup(it.kill)
        return it

    def ran(self, *words: str, name: str = "weighbridge", **more: str) -> tuple[int, str, str]:
        """Run the launcher. Return its status, and what it printed and reported."""
        it = self.begin(*words, name=name, **more)
        said, reported = it.communicate("t", timeout=60)
        return it.returncode, said, reported

    def calls(self) -> list[list[str]]:
        """Return the arguments of each call of the kit since the last time."""
        path = self.kit / "calls"
        lines = path.read_text().splitlines() if path.exists() else []
        before, self.seen = self.seen, len(lines)
        return [it.split() for it in lines[before:]]

    def proved(self) -> list[str]:
        """Return which crates were proved since the last time, and whether the program was compiled and linked."""
        return [it[0] for it in self.calls()]

    def later(self) -> None:
        """Let a file that is written now be newer than the program, by the file system's clock."""
        time.sleep(0.02)

    def test_a_build_proves_from_below_and_the_program_gets_the_arguments(self) -> None:
        status, said, reported = self.ran("serve", "--file", "a b")
        built = self.top / "crates/weighbridge/out/weighbridge"
        self.same("status", 0, status)
        self.same("what runs", f"runs {built} serve --file a b\n", said)
        order = self.proved()
        self.same("first", "low", order[0])
        self.same("then", {"left", "right"}, {*order[1:3]})
        self.same("last", ["weighbridge", "compile", "link"], order[3:])
        self.holds("the count", "proving and building 4 of 4 crates" in reported, reported)
        self.holds("a crate's line", ": left, 2 functions proved, 0 s" in reported, reported)
        self.same("again", (0, said, ""), self.ran("serve", "--file", "a b"))
        self.same("nothing is proved again", [], self.proved())

    def test_what_changed_is_proved_again_with_all_above_it(self) -> None:
        self.ran()
        self.calls()
        all_above_low = ["low", "left", "right", "weighbridge", "compile", "link"]
        end = ["weighbridge", "compile", "link"]
        crates = self.top / "crates"
        rows = (
            ("a source", crates / "left/src/lib.rt", ["left", *end]),
            ("a definition", crates / "low/specs/one.antt", all_above_low),
            ("a proof", crates / "right/proofs/one/two.antt", ["right", *end]),
            ("a new file", crates / "right/proofs/new.antt", ["right", *end]),
            ("a crate that it doesn't use", crates / "lone/src/lib.rt", end),
        )
        for what, path, wanted in rows:
            self.later()
            path.write_text(f"fn {what}\n")
            self.ran()
            self.same(what, sorted(wanted), sorted(self.proved()))
        self.later()
        (crates / "right/proofs/new.antt").unlink()
        self.ran()
        self.same("a file that was removed", sorted(["right", *end]), sorted(self.proved()))
        self.later()
        (crates / "right/proofs/one/two.antt").rename(crates / "right/proofs/one/three.antt")
        self.ran()
        self.same("a file with another name", sorted(["right", *end]), sorted(self.proved()))
        self.later()
        self.source("low").touch()
        self.ran()
        self.same("a file with another time and the same text", [], self.proved())
        self.later()
        listed = self.top / "crates.txt"
        listed.write_text(listed.read_text().replace("right: low", "right: low regex"))
        self.ran()
        self.same("what a crate names", sorted(["right", *end]), sorted(self.proved()))
        (self.kit / "KIT-ID").write_text("another kit\n")
        self.later()
        self.source("low").touch()
        self.ran()
        self.same("another kit", sorted(all_above_low), sorted(self.proved()))

    def test_a_crate_gets_those_that_it_names_and_finds_those_below(self) -> None:
        self.ran()
        words = {it[0]: it for it in self.calls()}
        crates = self.top / "crates"

        def after(crate: str, option: str) -> set[str]:
            its = words[crate]
            return {its[at + 1] for at, it in enumerate(its) if it == option}

        kit = f"{self.kit}/rlibs"
        low, left, right = (f"{crates}/{it}/out/proved" for it in ("low", "left", "right"))
        self.same(
            "what left names",
            {f"std={kit}/std.rlib", f"regex={kit}/regex.rlib", f"low={low}/low.rlib"},
            after("left", "--extern"),
        )
        self.same(
            "what the program names",
            {f"std={kit}/std.rlib", f"left={left}/left.rlib", f"right={right}/right.rlib"},
            after("weighbridge", "--extern"),
        )
        self.same(
            "where it finds the rest",
            {f"dependency={it}" for it in (kit, low, left, right)},
            after("weighbridge", "-L"),
        )
        self.same("it is checked", "check", words["weighbridge"][1])
        self.same("a library is built", "build", words["left"][1])
        self.same("the backend", {"rattle"}, after("compile", "--backend"))
        jobs = {int(it) for crate in ("low", "left", "right") for it in after(crate, "--jobs")}
        self.holds("jobs", jobs <= {1, 2, 3, 4}, jobs)

    def test_the_program_knows_its_kit_and_its_sources(self) -> None:
        self.ran()
        digest = hashlib.sha256()
        crates = self.top / "crates"
        paths = [
            it.relative_to(self.top)
            for part in ("src", "specs", "proofs")
            for it in crates.glob(f"*/{part}/**/*")
            if it.is_file()
        ]
        for path in sorted(paths, key=lambda it: os.fsencode(it)):
            its = hashlib.sha256((self.top / path).read_bytes()).hexdigest()
            digest.update(f"{its}  {path}\n".encode())
        counted = (crates / "weighbridge/out/counted/src/built.rt").read_text()
        wanted = (
            f'// The program prints both.\nKIT = "{KIT_LINE}"\nSOURCES = "{digest.hexdigest()}"\n'
        )
        self.same("the copy that is proved", wanted, counted)
        self.same("the source", BUILT, self.source("weighbridge", "built.rt").read_text())
        self.later()
        self.source("weighbridge", "built.rt").write_text("// It has no place.\n")
        status, said, reported = self.ran()
        self.same("a source without a place for them", (1, ""), (status, said))
        self.holds("why", "src/built.rt has no place for" in reported, reported)

    def test_a_crate_that_fails_ends_the_build_and_is_proved_next_time(self) -> None:
        (self.kit / "fail_right").touch()
        status, said, reported = self.ran()
        self.same("status", (1, ""), (status, said))
        self.holds("which", "weighbridge: right failed; crates/right/out/proof.log" in reported)
        self.holds("why", "the goal is open" in reported, reported)
        self.holds("not the whole log", "line 5\n" not in reported, reported)
        self.holds("nothing above it is begun", "weighbridge" not in self.proved())
        (self.kit / "fail_right").unlink()
        self.same("status of the next", 0, self.ran()[0])
        again = self.proved()
        self.holds("it is proved again", "right" in again, again)
        self.holds("what was proved isn't", not {"low", "left"} & {*again}, again)
        former = self.source("right").read_text()
        (self.kit / "fail_right").touch()
        self.later()
        self.source("right").write_text("fn fails\n")
        self.same("status of a change that fails", 1, self.ran()[0])
        (self.kit / "fail_right").unlink()
        self.later()
        self.source("right").write_text(former)
        self.calls()
        self.same("status once it is as before", 0, self.ran()[0])
        self.holds("what failed meanwhile is proved again", "right" in self.proved())

    def test_a_program_that_is_not_compiled_or_linked_replaces_none(self) -> None:
        self.ran()
        for fault in ("compile", "link"):
            self.later()
            self.source("weighbridge").write_text(f"fn fails_at_{fault}\n")
            (self.kit / f"fail_{fault}").touch()
            status, said, _ = self.ran()
            self.same(f"{fault}: status", (1, ""), (status, said))
            built = self.top / "crates/weighbridge/out/weighbridge"
            self.holds(f"{fault}: the former program is there", built.exists())
            (self.kit / f"fail_{fault}").unlink()
            self.same(f"{fault}: the next", 0, self.ran()[0])

    def test_a_file_that_was_deleted_is_made_again(self) -> None:
        self.ran()
        self.calls()
        crates = self.top / "crates"
        (crates / "weighbridge/out/weighbridge").unlink()
        self.same("the program: status", 0, self.ran()[0])
        self.same("it is compiled and not proved", ["compile", "link"], self.proved())
        (crates / "left/out/proved/left.rlib").unlink()
        self.later()
        self.source("lone").write_text("fn changed\n")
        self.same("a library: status", 0, self.ran()[0])
        wanted = ["left", "weighbridge", "compile", "link"]
        self.same("only that one is proved again", wanted, self.proved())
        (crates / "weighbridge/out/proved/stamp").unlink()
        self.same("the stamp: status", 0, self.ran()[0])
        self.same("the program is proved again", wanted[1:], self.proved())

    def test_a_source_that_changes_meanwhile_is_not_in_the_program(self) -> None:
        (self.kit / "hold_weighbridge").touch()
        it = self.begin()
        wait_until("the program is being proved", lambda: "weighbridge" in self.proved())
        self.source("lone").write_text("fn changed\n")
        (self.kit / "hold_weighbridge").unlink()
        said, reported = it.communicate("", timeout=60)
        self.same("status", (1, ""), (it.returncode, said))
        self.holds("why", "a source was changed while the program was proved" in reported, reported)
        self.same("the next", 0, self.ran()[0])

    def test_of_two_at_once_one_builds(self) -> None:
        (self.kit / "hold_low").touch()
        one = self.begin("one")
        wait_until("it proves", (self.kit / "calls").exists)
        other = self.begin("other", name="weighbridge")
        assert other.stderr is not None
        waits = other.stderr.readline()
        self.holds("the other one says that it waits", "another ./weighbridge is building" in waits)
        (self.kit / "hold_low").unlink()
        self.holds("the one", one.communicate("", timeout=60)[0].endswith(" one\n"))
        self.holds("the other one", other.communicate("", timeout=60)[0].endswith(" other\n"))
        found = self.proved()
        self.same("each crate once", len(found), len({*found}))

    def test_the_compiler_is_asked_for_or_as_it_was(self) -> None:
        self.ran(WEIGHBRIDGE_COMPILER="llvm")
        backends = [it[it.index("--backend") + 1] for it in self.calls() if "--backend" in it]
        self.same("asked for", ["llvm"], backends)
        self.same("none asked for", (0, []), (self.ran()[0], self.proved()))
        self.same("the other one", 0, self.ran(WEIGHBRIDGE_COMPILER="rattle")[0])
        self.same("it is compiled and not proved", ["compile", "link"], self.proved())
        status, said, reported = self.ran(WEIGHBRIDGE_COMPILER="gcc")
        self.same("none of both", (1, ""), (status, said))
        self.holds("which there are", "set it to rattle or llvm" in reported, reported)

    def test_the_converter_is_the_other_program(self) -> None:
        status, said, _ = self.ran("run", name="weighbridge-converter")
        built = self.top / "crates/weighbridge_converter/out/weighbridge_converter"
        self.same("what runs", (0, f"runs {built} run\n"), (status, said))
        wanted = ["low", "weighbridge_converter", "compile", "link"]
        self.same("only what it uses is proved", wanted, self.proved())
        self.ran()
        self.same("what both use is proved once", 0, self.proved().count("low"))

    def test_a_trial_runs_the_source_without_a_proof(self) -> None:
        status, said, reported = self.ran("try", "replay", "--window", "4")
        self.same("what runs", (3, "t"), (status, said))
        self.holds("it says so", "a trial: nothing is proved" in reported, reported)
        self.holds("not the kit's own lines", "run=ended" not in reported, reported)
        self.same("it is asked", [["rt", "try", "--", "replay", "--window", "4"]], self.calls())
        status, said, reported = self.ran("try", "serve")
        self.same("anything else", (1, "", []), (status, said, self.calls()))
        self.holds("what to use", "use ./weighbridge serve" in reported, reported)
