"""Shows that the packages of the terminal as a library work from a clean folder: each call from C, C++ and Python, header,
soname, pkg-config, CMake, wheel, aarch64.

The check unpacks the packages in a clean folder, and uses only what is there.

- The example is compiled by the line at its head, with pkg-config, as C and as C++, by its Makefile and by CMake. It
  prints what docs/library.md shows.
- A program makes each call, including at its limits, with nulls and with buffers that are too small
  (checks/lib/library_calls.c). It runs as C and as C++, with assertions and without, with the sanitizers of addresses
  and of undefined behaviour, and under valgrind. The constants of the header are there what the calls say, and a call
  of a const terminal changes no byte of it.
- The assertions of the header stop a program that passes a wrong address or a null.
- No macro has the name of a call, and a target of 32 bits is refused. doxygen and C++ with all warnings report nothing
  about the header.
- cffi and bindgen read the file of declarations, each call is in it, and a terminal weighs through cffi.
- The archive needs no symbol except memcpy and memset. The shared library has its soname, and exports only the calls of
  the header. The manual page names each of them.
- The wheel installs without a network, and has the licence and a description. An older library is refused by name.
  Python's unit tests run over it and over the module of its package, and mypy checks its types.
- The archive for aarch64 prints the example's lines too.
"""

import os
import re
import shutil
import subprocess
import tempfile
import unittest
from pathlib import Path

from checks import TOP
from checks.lib.case import Check, skip_without

PREFIX = "weighbridge_terminal_"
# These are inline in the header.
INLINE = {PREFIX + it for it in ("in", "lost", "reply_text", "error", "state")}
CALLS = TOP / "checks/lib/library_calls.c"
INCLUDES = "#include <weighbridge_terminal.h>\n"
WARNINGS = "-Wall -Wextra -Wpedantic -Wold-style-cast -Wconversion -Wshadow -Wzero-as-null-pointer-constant"
SANITIZERS = "-fsanitize=address,undefined -fno-sanitize-recover=all"
DOXYFILE = """INPUT={header} {declarations}
OUTPUT_DIRECTORY={box}/doxygen
QUIET=YES
GENERATE_LATEX=NO
HAVE_DOT=NO
EXTRACT_STATIC=YES
"""
BY_CFFI = """
import sys, cffi

ffi = cffi.FFI()
ffi.cdef(open(sys.argv[1]).read())
library = ffi.dlopen(sys.argv[2])
assert library.weighbridge_terminal_setup_size() == ffi.sizeof("weighbridge_terminal_setup")
assert library.weighbridge_terminal_size() == library.WEIGHBRIDGE_TERMINAL_SIZE
memory = ffi.new("uint64_t[]", library.WEIGHBRIDGE_TERMINAL_SIZE // 8)
terminal = ffi.cast("weighbridge_terminal *", memory)
setup = ffi.new("weighbridge_terminal_setup *", [20, 60000, 4, 2, 10, 20, b"WB01"])
assert library.weighbridge_terminal_open(terminal, setup) == library.WEIGHBRIDGE_TERMINAL_OK
for _ in range(4):
    assert library.weighbridge_terminal_reading(terminal, 9170) == 0
assert library.weighbridge_terminal_take(terminal, b"SI\\n", 3) == 3
assert library.weighbridge_terminal_take(ffi.NULL, b"SI\\n", 3) == library.WEIGHBRIDGE_TERMINAL_NO_COUNT
text = ffi.new("uint8_t[]", library.WEIGHBRIDGE_TERMINAL_REPLY_BYTES)
length = library.weighbridge_terminal_reply(terminal, 0, text, len(text))
print(bytes(text)[: length - 2].decode())
print(ffi.typeof("enum weighbridge_terminal_states").elements[library.WEIGHBRIDGE_TERMINAL_STABLE])
for call in sys.argv[3:]:
    getattr(library, call)
"""
OLDER = """unsigned weighbridge_terminal_version(void) { return 20100; }
unsigned long weighbridge_terminal_size(void) { return 1080; }
unsigned long weighbridge_terminal_alignment(void) { return 8; }
"""
TOO_OLD = r"ImportError: .*older.so: it has no call weighbridge_terminal_setup_size, because it is older than version .*; install the same version of both"
RIGHT = """from weighbridge_terminal import State, Terminal

terminal = Terminal(window=4, serial="X")
is_moving: bool = terminal.indication().state is State.MOVING
terminal.reading(5)
"""
WRONG = """from weighbridge_terminal import Terminal

Terminal(window="4")
Terminal(widow=4)
Terminal().reading("5")
"""
PYTHON = "/usr/bin/python3"


def said(
    *words: str | Path, given: str = "", cwd: Path | None = None, more: dict[str, str] = {}
) -> str:
    """Return what a command prints and reports. A variable that is empty is removed from its environment."""
    environment = {name: it for name, it in {**os.environ, **more}.items() if it}
    ran = subprocess.run(
        words,
        input=given,
        cwd=cwd,
        env=environment,
        stdout=subprocess.PIPE,
        stderr=subprocess.STDOUT,
        text=True,
    )
    return ran.stdout.strip() if not ran.returncode else f"status {ran.returncode}: {ran.stdout}"


def symbols(words: list[str | Path], kind: str) -> list[str]:
    """Return the symbols of this kind that `nm` lists, in their order."""
    lines = [it.split() for it in said(*words).splitlines()]
    return sorted({it[-1].partition("@")[0] for it in lines if len(it) > 1 and it[-2] == kind})


class Unpacked:
    """The packages, unpacked in a clean folder, and what they have."""

    def __init__(self, box: Path, packages: list[Path]) -> None:
        self.root = root = box / "root"
        root.mkdir()
        for package in packages:
            subprocess.run(["dpkg-deb", "-x", package, root], check=True)
        self.triplet = said("cc", "-print-multiarch")
        self.libraries = root / "usr/lib" / self.triplet
        self.archive = self.libraries / "libweighbridge-terminal.a"
        self.shared = self.libraries / "libweighbridge-terminal.so"
        self.modules = root / "usr/lib/python3/dist-packages"
        self.documents = root / "usr/share/doc/libweighbridge-terminal-dev"
        self.example = self.documents / "examples/example.c"
        self.header = root / "usr/include/weighbridge_terminal.h"
        self.declarations = root / "usr/include/weighbridge_terminal_declarations.h"
        texts = self.header.read_text() + self.declarations.read_text()
        named = {*re.findall(rf"({PREFIX}[a-z_]*)\(", texts)}
        self.calls = sorted(it for it in named if "_unchecked_" not in it)
        self.exports = [it for it in self.calls if it not in INLINE]
        configured = str(self.libraries / "pkgconfig")
        self.sysroot = {"PKG_CONFIG_SYSROOT_DIR": str(root), "PKG_CONFIG_LIBDIR": configured}
        self.loaded = {"LD_LIBRARY_PATH": str(self.libraries)}
        self.flags = self.configured("--cflags", "--libs").split()
        page = (self.documents / "library.md").read_text()
        shown = re.search(r"(?s)<!-- what the example prints -->\n.*?```\w*\n(.*?)```", page)
        self.wanted = shown[1].strip() if shown else ""

    def configured(self, *words: str) -> str:
        return said("pkg-config", *words, "weighbridge-terminal", more=self.sysroot)


class Library(Check):
    """The packages, and what can be made with them."""

    needs = ("cc", "c++", "dpkg-deb", "dh", "git", "pkg-config", "valgrind", "man", "nm", "readelf")
    seconds = 200
    box: Path
    packages: list[Path]
    lib: Unpacked

    @classmethod
    def setUpClass(cls) -> None:
        cls.box = Path(cls.enterClassContext(tempfile.TemporaryDirectory()))
        built = [str(TOP / "packaging/build"), "--library", str(cls.box)]
        ran = subprocess.run(built, capture_output=True, text=True)
        if ran.returncode:
            raise AssertionError(f"no packages: {ran.stderr[-2000:]}")
        cls.packages = [Path(it) for it in ran.stdout.split()]
        cls.lib = Unpacked(cls.box, cls.packages)

    def compiled(self, source: Path, *words: str) -> Path:
        """Compile a program of the package or of the checks by these words."""
        program = self.box / f"program{len(list(self.box.glob('program*')))}"
        self.assertEqual("", said(*words, "-o", program, source, *self.lib.flags))
        return program

    def run_by(self, source: Path, *words: str) -> str:
        return said(self.compiled(source, *words), more=self.lib.loaded)

    def written(self, name: str, text: str) -> Path:
        (self.box / name).write_text(text)
        return self.box / name

    def test_packages(self) -> None:
        wanted = "libweighbridge-terminal-dev libweighbridge-terminal2 python3-weighbridge-terminal"
        names = [it.name.partition("_")[0] for it in self.packages]
        self.same("three packages", wanted.split(), names)
        describe = "git describe --always --dirty --abbrev=12 --exclude *".split()
        page = (self.lib.root / "usr/share/weighbridge-terminal/terminal.html").read_text()
        named = re.search(r'<span id="commit">(.*)</span>', page)
        self.same("the commit that the page names", said(*describe, cwd=TOP), named and named[1])
        log = (TOP / "packaging/weighbridge/debian/changelog").read_text()
        version = self.lib.configured("--modversion")
        self.same("the version of pkg-config", log.partition("(")[2].partition(")")[0], version)

    @skip_without("lintian")
    def test_lintian(self) -> None:
        kind = said("dpkg", "--print-architecture")
        sources = [*self.box.glob("*.dsc"), *self.box.glob(f"*_{kind}.changes")]
        self.assertEqual("", said("lintian", "--allow-root", "--fail-on", "none", *sources))

    def test_symbols(self) -> None:
        wanted = symbols(["nm", "-u", self.lib.archive], "U")
        self.same("symbols that the archive wants", ["memcpy", "memset"], wanted)
        soname = re.findall(r"\(SONAME\).*\[(.*)\]", said("readelf", "-d", self.lib.shared))
        self.same("the soname", ["libweighbridge-terminal.so.2"], soname)
        exported = symbols(["nm", "-D", "--defined-only", self.lib.shared], "T")
        self.same("what the shared library exports", self.lib.exports, exported)

    def test_header(self) -> None:
        include = f"-I{self.lib.root}/usr/include"
        macros = said("cc", include, "-E", "-dM", "-xc", "-", given=INCLUDES)
        named = re.findall("define weighbridge_terminal.*", macros)
        self.same("no macro has the name of a call", [], named)
        words = ("cc", "-m32", "-ffreestanding", "-DNDEBUG", include, "-fsyntax-only", "-xc", "-")
        reason = "there is no library for processors of 32 bits"
        self.holds("a target of 32 bits is refused", reason in said(*words, given=INCLUDES))
        lines = re.findall("^ *#.*", self.lib.declarations.read_text(), re.M)
        others = [it for it in lines if not re.fullmatch("#define [A-Z_]+ [0-9]+U?", it)]
        self.same("the directives of the declarations are constants", [], others)
        use = "size_t f(const weighbridge_terminal *it) { return weighbridge_terminal_replies(it); }\n"
        source = self.written("header.cc", INCLUDES + use)
        for compiler in filter(shutil.which, ("c++", "clang++")):
            for standard in (11, 17, 20):
                options = [f"-std=c++{standard}", *WARNINGS.split(), include, "-fsyntax-only"]
                report = said(compiler, *options, source)
                self.same(f"what {compiler} says of it in C++{standard}", "", report)

    @skip_without("doxygen")
    def test_doxygen(self) -> None:
        (self.box / "doxygen").mkdir()
        names = {"header": self.lib.header, "declarations": self.lib.declarations, "box": self.box}
        setup = self.written("Doxyfile", DOXYFILE.format(**names))
        self.same("what doxygen says", "", said("doxygen", setup))
        pages = "".join(
            (self.box / f"doxygen/html/weighbridge__terminal{it}_8h.html").read_text()
            for it in ("", "__declarations")
        )
        missing = [it for it in self.lib.calls if it not in pages]
        self.same("calls that it doesn't document", [], missing)

    def test_manual_page(self) -> None:
        page = said("zcat", self.lib.root / "usr/share/man/man3/weighbridge_terminal.3.gz")
        self.same("calls that it doesn't name", [], [it for it in self.lib.calls if it not in page])
        source = self.written("page.3", page + "\n")
        words = ("man", "--warnings", "-E", "UTF-8", "-l", source)
        ran = subprocess.run(words, capture_output=True, text=True)
        self.same("what man says of it", "", ran.stderr)

    def test_example(self) -> None:
        self.assertNotEqual("", self.lib.wanted, "docs/library.md shows what the example prints")
        in_cc = self.box / "example.cc"
        shutil.copy(self.lib.example, in_cc)
        by_c = ("cc", "-std=c11", "-Wall", "-Wextra", "-Wpedantic", "-Werror")
        self.same("the example in C", self.lib.wanted, self.run_by(self.lib.example, *by_c))
        by_cc = ("c++", "-std=c++17", "-Wall", "-Wextra", "-Werror")
        self.same("the example in C++", self.lib.wanted, self.run_by(in_cc, *by_cc))
        checked = ("valgrind", "-q", "--leak-check=full", "--error-exitcode=9")
        found = said(*checked, self.compiled(self.lib.example, *by_c), more=self.lib.loaded)
        self.same("under valgrind", self.lib.wanted, found)
        made = self.box / "made"
        shutil.copytree(self.lib.documents / "examples", made)
        more = {**self.lib.sysroot, **self.lib.loaded}
        found = said("sh", "-c", "make -s && ./example", cwd=made, more=more)
        self.same("by its Makefile", self.lib.wanted, found)

    @skip_without("cmake")
    def test_cmake(self) -> None:
        made = self.box / "by-cmake"
        shutil.copytree(self.lib.documents / "examples", made)
        words = f"cmake -DCMAKE_PREFIX_PATH={self.lib.root}/usr -DCMAKE_LIBRARY_ARCHITECTURE={self.lib.triplet} -B built ."
        build = f"{words} >configured && cmake --build built >compiled && built/example"
        self.same("the example", self.lib.wanted, said("sh", "-c", build, cwd=made))
        lists = made / "CMakeLists.txt"
        text = lists.read_text().replace("weighbridge-terminal 2.1", "weighbridge-terminal 3.0")
        lists.write_text(text)
        shutil.rmtree(made / "built")
        found = said("sh", "-c", words, cwd=made)
        self.holds("another first place of the version is refused", found[:7] == "status ", found)

    def test_calls(self) -> None:
        in_cc = self.box / "calls.cc"
        shutil.copy(CALLS, in_cc)
        ok = "library_calls: ok"
        for name, source, words in (
            ("in C", CALLS, "cc -std=c11 -Wall -Wextra -Wpedantic -Werror -g"),
            ("without assertions", CALLS, "cc -std=c11 -Wall -Wextra -Werror -O3 -DNDEBUG"),
            ("in C++", in_cc, "c++ -std=c++17 -Wall -Wextra -Werror"),
            ("with sanitizers", CALLS, f"cc -std=c11 -g {SANITIZERS}"),
        ):
            self.same(f"each call, {name}", ok, self.run_by(source, *words.split()))
        program = self.compiled(CALLS, "cc", "-std=c11", "-g")
        checked = ("valgrind", "-q", "--leak-check=full", "--error-exitcode=9")
        self.same("each call, under valgrind", ok, said(*checked, program, more=self.lib.loaded))
        for wrong in ("misaligned", "null"):
            script = 'ulimit -c 0; "$@" 2>/dev/null; echo $?'
            found = said("bash", "-c", script, "bash", program, wrong, more=self.lib.loaded)
            self.same(
                f"an address that is {wrong} stops at an assertion", "134", found.splitlines()[-1]
            )

    @skip_without("cffi")
    def test_cffi(self) -> None:
        script = self.written("by_cffi.py", BY_CFFI)
        found = said(
            PYTHON, script, self.lib.declarations, f"{self.lib.shared}.2", *self.lib.exports
        )
        self.same("a terminal", "S S      18340 kg\nWEIGHBRIDGE_TERMINAL_STABLE", found)

    @skip_without("bindgen")
    def test_bindgen(self) -> None:
        words = ("-include", "stddef.h", "-include", "stdint.h")
        bound = said("bindgen", self.lib.declarations, "--", *words)
        found = sorted(re.findall(rf"pub fn ({PREFIX}[a-z_]*)", bound))
        self.same("the calls that it finds", self.lib.exports, found)
        enums = re.findall(rf"^pub type {PREFIX}(?:states|results) =", bound, re.M)
        self.same("the enums that it names", 2, len(enums))

    def unit_tests(self, python: str | Path, more: dict[str, str]) -> str:
        """Run Python's unit tests in a folder where nothing of the repository is. Return the last line."""
        folder = Path(self.folder())
        package = self.lib.root / "usr/share/doc/python3-weighbridge-terminal"
        shutil.copy(package / "examples/test_weighbridge_terminal.py", folder)
        words = (python, "-m", "unittest", "test_weighbridge_terminal")
        own = {"WEIGHBRIDGE_TERMINAL_LIBRARY": "", "PYTHONDONTWRITEBYTECODE": "1", **more}
        found = said(*words, cwd=folder, more=own)
        return found if found.startswith("status") else found.splitlines()[-1]

    def test_module(self) -> None:
        path = {"PYTHONPATH": str(self.lib.modules)}
        found = self.unit_tests(PYTHON, {**path, **self.lib.loaded})
        self.same("Python's unit tests, over the system's library", "OK", found)
        words = (PYTHON, "-c", "import weighbridge_terminal")
        found = said(*words, more=path)
        advice = re.search("(?m)^ImportError: .*install libweighbridge-terminal2", found)
        self.holds("without it, the error says what to do", advice, found)
        source, older = self.written("older.c", OLDER), self.box / "older.so"
        subprocess.run(["cc", "-shared", "-fPIC", "-o", older, source], check=True)
        found = said(*words, more={**path, "WEIGHBRIDGE_TERMINAL_LIBRARY": str(older)})
        is_refused = re.search(f"(?m)^{TOO_OLD}$", found)
        self.holds("an older library is refused, with what to do", is_refused, found)

    @skip_without("ensurepip", "pip", "setuptools", "wheel", "unzip")
    def test_wheel(self) -> None:
        path = {**os.environ, "PATH": f"/usr/bin:{os.environ['PATH']}"}
        made = [TOP / "library/wheel", self.box]
        wheel = subprocess.check_output(made, env=path, text=True, stderr=subprocess.PIPE).strip()
        offline = "" if said("unshare", "-rn", "true") else "unshare -rn"
        venv = self.box / "venv"
        install = f"{PYTHON} -m venv {venv} && {venv}/bin/pip install --quiet --no-index --disable-pip-version-check {wheel}"
        self.same("it is installed", "", said(*offline.split(), "sh", "-c", install))
        found = self.unit_tests(venv / "bin/python", {"LD_LIBRARY_PATH": ""})
        self.same("Python's unit tests, in a venv without a network", "OK", found)
        metadata = said("unzip", "-p", wheel, "*/METADATA").splitlines()
        wanted = ["License: MIT", "License-File: LICENSE", "# weighbridge_terminal"]
        begins = ("License: ", "License-File: ", "# ")
        found_lines = [it for it in metadata if it.startswith(begins)]
        self.same("its licence and description", wanted, found_lines)
        licence = (TOP / "LICENSE").read_text().strip()
        self.same(
            "it has the repository's licence", licence, said("unzip", "-p", wheel, "*LICENSE")
        )
        version = self.lib.configured("--modversion")
        listed = said(venv / "bin/pip", "list", "--format=freeze", "--disable-pip-version-check")
        found_lines = re.findall("^weighbridge.terminal==(.*)", listed, re.M)
        self.same("its version", [version], found_lines)

    @skip_without("mypy")
    def test_types_of_the_module(self) -> None:
        words = ("mypy", "--strict", "--cache-dir", "/dev/null")
        path = {"MYPYPATH": str(self.lib.modules)}
        found = said(*words, self.written("right.py", RIGHT), cwd=self.box, more=path)
        self.same("the types are found", "Success: no issues found in 1 source file", found)
        found = said(*words, self.written("wrong.py", WRONG), cwd=self.box, more=path)
        errors = re.findall(r"wrong\.py:.* error:", found)
        self.same("a keyword or a type that is wrong is named", 3, len(errors))

    @skip_without("aarch64-linux-gnu-gcc", "qemu-aarch64")
    def test_aarch64(self) -> None:
        given = os.environ.get("WEIGHBRIDGE_LIBRARY")
        if given and not os.path.exists(f"{given}/aarch64"):
            raise unittest.SkipTest("the library wasn't built for aarch64")
        folder = self.box / "arm64"
        folder.mkdir()
        said(TOP / "packaging/package", "weighbridge-terminal", folder, "arm64")
        for package in folder.glob("*_arm64.deb"):
            subprocess.run(["dpkg-deb", "-x", package, folder / "root"], check=True)
        libraries, include = folder / "root/usr/lib/aarch64-linux-gnu", folder / "root/usr/include"
        words: list[str | Path] = ["aarch64-linux-gnu-nm", "-g", "--defined-only"]
        found = symbols([*words, libraries / "libweighbridge-terminal.a"], "T")
        of_terminal = [it for it in found if it.startswith(PREFIX)]
        self.same("the archive has the same calls", self.lib.exports, of_terminal)
        run = ("qemu-aarch64", "-L", "/usr/aarch64-linux-gnu", "-E", f"LD_LIBRARY_PATH={libraries}")
        for ending in ("a", "so"):
            linked = libraries / f"libweighbridge-terminal.{ending}"
            programs = {self.lib.example: self.lib.wanted, CALLS: "library_calls: ok"}
            for source, wanted in programs.items():
                program = folder / "program"
                compile = ("aarch64-linux-gnu-gcc", "-std=c11", f"-I{include}", "-o", program)
                self.assertEqual("", said(*compile, source, linked))
                self.same(f"{source.name} with the .{ending}", wanted, said(*run, program))
