"""Shows `weighbridge-converter` without a service, for checks/converters: a calibration step by step, lines of counts, clients of every kind, and its delay."""

import os
import signal
import statistics
import subprocess
import threading
import time
from pathlib import Path

from checks.lib import bridge
from checks.lib.converting import (
    OLD,
    POINTS,
    Client,
    Running,
    calibrate,
    holds,
    line_of,
    lines,
    point,
    ran,
    same,
)
from checks.lib.devices import pipe, wait_for

# Refuses to remove a file.
REFUSES = """int unlink(const char *path) { return -1; }
int unlinkat(int at, const char *path, int flags) { return -1; }
"""


def write(folder: str, name: str, text: str) -> str:
    path = os.path.join(folder, name)
    Path(path).write_text(text, encoding="ascii")
    return path


def makes_a_calibration(folder: str) -> None:
    same("no calibration", (1, "", "no calibration\n"), ran("show", folder=folder))
    same("no points", (1, "", "no points\n"), ran("finish", folder=folder))
    first = "point -8388 0\n"
    one, two = ("--lines", "1"), ("--lines", "2")
    taken = (0, f"load 0 mean -8388 spread 2 lines 50\n{first}", "")
    for name, load, given, more, wanted in (
        ("the first point", 0, lines(-8_388), (), taken),
        (
            *("a spread", 10_000, "2\n12\n", two),
            (1, "load 10000 mean 7 spread 10 lines 2\n", "refused: a spread of 10 is above 4\n"),
        ),
        ("a lost reading", 10_000, "2\nlost\n", (), (1, "", "line 2 has no counts\n")),
        ("counts of 33 bits", 10_000, "2147483648\n", (), (1, "", "line 1 has no counts\n")),
        ("too few lines", 10_000, lines(5, 49), (), (1, "", "only 49 lines came\n")),
        (
            *("a mean, an exact half", 20_000, "-3\n0\n", two),
            (0, f"load 20000 mean -1 spread 3 lines 2\n{first}point -1 20000\n", ""),
        ),
        (
            *("one point in the place of another", 20_000, "9\n", one),
            (0, f"load 20000 mean 9 spread 0 lines 1\n{first}point 9 20000\n", ""),
        ),
    ):
        same(name, wanted, point(folder, load, given, *more))
    point(folder, 10_000, lines(250_000))
    wrong = (1, "", "refused: 5 Counts 3\n")
    same("points that are none", wrong, ran("finish", folder=folder))
    same("nothing is written", ["calibration.points"], sorted(os.listdir(folder)))
    os.remove(os.path.join(folder, "calibration.points"))
    made = calibrate(folder)
    shown = made[1].splitlines()
    same("a calibration is made", (0, "", 7), (made[0], made[2], len(shown)))
    points = [f"point {counts} {load}" for counts, load in POINTS]
    made_lines = ["calibration 1", *points, "counts per e 225.0"]
    same("its lines", made_lines, [shown[0], *shown[2:5], shown[6]])
    same("its file is all there is", ["calibration"], sorted(os.listdir(folder)))
    same("it is shown", made, ran("show", folder=folder))
    for at in range(9):
        point(folder, at * 1_000, f"{at * 1000}\n", *one)
    ninth = (1, "load 9000 mean 9 spread 0 lines 1\n", "8 points are taken already\n")
    same("a ninth point", ninth, point(folder, 9_000, "9\n", *one))
    second = ran("finish", folder=folder)[1].splitlines()[:1]
    same("a second calibration", ["calibration 2"], second)
    refuses_changed_files(folder)
    few = os.path.join(folder, "few")
    os.makedirs(few)
    warned = calibrate(few, [(0, 0), (999, 1_000)])[1].splitlines()[-1]
    same("a warning", "warning: fewer than 10 counts per e", warned)
    plot = ran("show", "--plot", folder=few)[1]
    drawn = subprocess.run(["gnuplot"], input=plot, capture_output=True, text=True)
    is_drawn = drawn.stdout.startswith("<?xml") and "</svg>" in drawn.stdout
    holds("gnuplot draws an SVG and says nothing", is_drawn and not drawn.stderr, drawn.stderr)


def refuses_changed_files(folder: str) -> None:
    file = Path(folder, "calibration").read_bytes()
    for place, number in ((30, 1), (len(file) - 40, 2)):
        changed = bytearray(file)
        changed[place] ^= 1
        Path(folder, "changed").write_bytes(changed)
        for words in ("show", "finish", "point --load 0 --spread 1", "run --listen 127.0.0.1:1"):
            write(folder, "changed.points", "point 0 0\npoint 1000 1000\n")
            found = ran(*words.split(), folder=folder, file="changed")
            wanted = (1, "", f"calibration {number} isn't as it was made\n")
            same(f"{words} at a file with byte {place} changed", wanted, found)


def finishes_again(folder: str) -> None:
    """Show that a calibration is made once, however often `finish` runs; its load may be given in kg."""

    def kg(counts: int, load: int) -> tuple[int, str, str]:
        words = ["--load-kg", str(load), "--interval", "20", "--spread", "4", "--lines", "1"]
        return ran("point", *words, given=f"{counts}\n", folder=folder)

    def finish(*words: str) -> tuple[int, str, list[str]]:
        status, out, err = ran("finish", *words, folder=folder)
        return status, err, out.splitlines()

    wanted = "20000 kg are 10000 tenths of e, which is 20 kg\nload 10000 mean 5000 spread 0 lines 1\npoint 0 0\npoint 5000 10000\n"
    point(folder, 0, "0\n", "--lines", "1")
    same("a load in kg", (0, wanted, ""), kg(5_000, 20_000))
    status, out, err = kg(5_000, 20_001)
    half = (1, "", "refused: 20001 kg are no whole number of tenths of 20 kg")
    same("a load of half a tenth", half, (status, out, err.partition(" from")[0]))
    path = Path(folder, "calibration.points")
    points = path.read_text(encoding="ascii")
    mean = ("--filter", "mean", "8")
    _, _, made = finish(*mean)
    same("a calibration with a filter", ["calibration 1", "filter mean 8"], made[:3:2])
    for what, words, number in (
        ("the same points and filter", mean, 1),
        ("the same points without a filter", (), 2),
    ):
        write(folder, "calibration.points", points)
        status, _, made = finish(*words)
        same(f"{what}, again", (0, f"calibration {number}"), (status, made[0]))
        holds(f"{what}: the points are gone", not path.exists())
    same("no points and no filter", (1, "no points\n", []), finish())
    median = ("--filter", "median", "5")
    for what in ("a filter without points", "the same filter again"):
        _, _, made = finish(*median)
        same(what, ["calibration 3", "filter median 5"], made[:3:2])
    for words in (mean, ("--filter", "median", "4"), median):
        listen = ("--listen", f"{bridge.HOST}:{bridge.free_port()}")
        status, out, err = ran("run", *listen, *words, folder=folder)
        refused = (1, "", "refused: the newest calibration has the filter median 5")
        found = (status, out, err.partition(": give")[0])
        wanted_end = (0, "lines 0\n", "") if words is median else refused
        same(f"run with {' '.join(words)}", wanted_end, found)


def keeps_points(folder: str) -> None:
    """Show points that can't be removed: a library in between refuses it."""
    library = os.path.join(folder, "refuses.so")
    source = write(folder, "refuses.c", REFUSES)
    subprocess.run(["cc", "-shared", "-fPIC", "-o", library, source], check=True)
    for counts, load in POINTS:
        point(folder, load, lines(counts))
    words = ("--filter", "mean", "2")
    refused = "calibration.points can't be removed: the calibration stands; remove that file, or finish again with the same words\n"
    preloaded = {**os.environ, "LD_PRELOAD": library}
    for _ in range(2):
        status, out, err = ran("finish", *words, folder=folder, env=preloaded)
        found = (status, out.partition("\n")[0], err)
        same("points that can't be removed", (1, "calibration 1", refused), found)
    status, _, _ = ran("finish", *words, folder=folder)
    shown = ran("show", folder=folder)[1].partition("\n")[0]
    same("once they can", (0, "calibration 1"), (status, shown))


def passes_on_each_load(folder: str) -> None:
    running = Running(folder)
    client = running.client()
    time.sleep(0.2)
    some = [-(2**31), -10_000_000, -8_389, -8_388, -8_387, 0, 1, 13, 249_999, 250_000, 250_001]
    some += [475_061, 700_123, 800_000, 44_000_000, 2**31 - 1]
    some += [at * 7_919 - 100_000 for at in range(400)]
    none = ["lost", "", "12 ", "+5", "1.5", "2147483648", "9" * 18, "9" * 70, "-", "0x10"]
    wanted = [line_of(it) for it in some] + ["lost"] * len(none)
    for text in (*map(str, some), *none):
        running.write(f"{text}\n")
        time.sleep(0.001)
    running.write("250000\r\n")
    running.write("2500")
    time.sleep(0.1)
    running.write("00\n")
    wait_for("the lines", lambda: len(client.lines) >= len(wanted) + 2)
    same("lines of counts as loads", wanted + ["10000", "10000"], client.texts())
    client.close()
    running.close()
    said = pipe(running.process.stdout).read().decode()
    end = (running.process.returncode, said)
    same("how it ends", (0, f"lines {len(wanted) + 2}\n"), end)


class Numbers(threading.Thread):
    """Writes counts whose loads are the numbers of their lines, `rate` batches a second, and keeps when each was written."""

    def __init__(self, running: Running, rate: float, batch: int = 1) -> None:
        super().__init__(daemon=True)
        self.running, self.rate, self.batch, self.slowest = running, rate, batch, 0.0
        self.sent: list[float] = []
        self.over = threading.Event()
        self.start()

    def run(self) -> None:
        due = time.monotonic()
        while not self.over.is_set():
            first = len(self.sent)
            self.sent += [time.monotonic()] * self.batch
            self.running.write("".join(f"{it}\n" for it in range(first, first + self.batch)))
            self.slowest = max(self.slowest, time.monotonic() - self.sent[-1])
            due = max(due + 1 / self.rate, time.monotonic() - 0.1)
            time.sleep(max(0, due - time.monotonic()))

    def ages(self, client: Client) -> list[float]:
        return [at - self.sent[int(text)] for at, text in client.lines if text.isdigit()]

    def oldest(self, client: Client) -> float:
        return max(self.ages(client), default=9.0)

    def close(self) -> None:
        self.over.set()
        self.join()


def come_and_go(folder: str) -> None:
    running = Running(folder)
    numbers = Numbers(running, 50)
    time.sleep(2)
    client = running.client()
    time.sleep(1)
    is_new = numbers.oldest(client) < OLD and len(client.lines) > 40
    holds("a client that connects late gets no line from before", is_new)
    second = running.client()
    time.sleep(1)
    same("a second client waits", [], second.texts())
    client.close()
    time.sleep(1)
    is_served = len(second.lines) > 40 and numbers.oldest(second) < OLD
    holds("a second client is served once the first is gone", is_served)
    running.process.send_signal(signal.SIGSTOP)
    time.sleep(3)
    running.process.send_signal(signal.SIGCONT)
    time.sleep(1)
    oldest = numbers.oldest(second)
    holds("after the program stood still comes no old line", oldest < OLD, oldest)
    came = {int(text) for text in second.texts()}
    skipped = max(came) - min(came) + 1 - len(came)
    holds("lines of those 3 s are dropped", 80 < skipped < 160, skipped)
    second.close()
    numbers.close()
    running.close()


def does_not_read(folder: str) -> None:
    running = Running(folder)
    client = running.client(room=2_048)
    client.reads.clear()
    numbers = Numbers(running, 1_000, batch=50)
    time.sleep(12)
    client.reads.set()
    time.sleep(2)
    numbers.close()
    time.sleep(0.5)
    whole = [int(text) for text in client.texts() if text.isdigit()]
    gap = max(range(1, len(whole)), key=lambda at: whole[at] - whole[at - 1])
    after = next(at for at, text in client.lines if text == str(whole[gap]))
    age = after - numbers.sent[whole[gap]]
    what = "the input doesn't wait for a client that doesn't read"
    holds(what, numbers.slowest < 0.5, numbers.slowest)
    holds("lines come in order, each once", whole == sorted(set(whole)))
    is_new = age < OLD and whole[gap] - whole[gap - 1] > 1_000
    holds("after what its system had accepted comes a new line", is_new, age)
    broken = [text for text in client.texts() if not text.isdigit()]
    is_marked = all(text.endswith("?") for text in broken) and len(broken) < 100
    holds("lines of which the client got a part end with a question mark", is_marked, broken[:5])
    client.close()
    running.close()


def show_delays(what: str, delays: list[float]) -> None:
    ordered = sorted(delays)
    places = (statistics.median(ordered), ordered[len(ordered) * 99 // 100], ordered[-1])
    median, most, greatest = (f"{1000 * it:.2f} ms" for it in places)
    print(f"{what}: median {median}, 99 of 100 below {most}, greatest {greatest}", flush=True)


def delays_of_10_000(folder: str) -> None:
    """Show from a count to its line, of 10,000 lines at 200 a second."""
    running = Running(folder)
    client = running.client()
    time.sleep(0.2)
    numbers = Numbers(running, 200)
    wait_for("10,000 lines", lambda: len(numbers.sent) >= 10_000, 120)
    numbers.close()
    time.sleep(0.5)
    same("each of 10,000 lines came", len(numbers.sent), len(client.lines))
    show_delays("from a count to its line, of 10,000", numbers.ages(client))
    client.close()
    running.close()
