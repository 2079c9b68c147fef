"""The pictures of docs/counter.md, for tools/pictures: taken in a browser over a real service."""

import io
import time
from contextlib import ExitStack

from checks.lib.clerk import F9, Clerk, at_of
from checks.lib.counter import Bridge

# Of the page at each size: width and height in pixels, and how high each is in the picture of all of them.
SIZES = ((360, 740), (1024, 768), (1280, 900), (1920, 1080))
HEIGHT, BETWEEN = 360, 12
SETTINGS = 'address = ["Hafenstraße 12", "28217 Bremen"]\n'


def make_small(clerk: Clerk) -> None:
    clerk.browser.look(1000, 640)
    clerk.browser.tool(
        "Emulation.setDeviceMetricsOverride",
        width=1000,
        height=640,
        deviceScaleFactor=0.7,
        mobile=False,
    )


def write_sizes(clerk: Clerk, path: str) -> None:
    """Write one picture of the page at each size, light above and dark below."""
    from PIL import Image

    rows = []
    for is_dark in (False, True):
        row = []
        for width, height in SIZES:
            clerk.browser.look(width, height, is_dark)
            time.sleep(0.6)
            taken = Image.open(io.BytesIO(clerk.browser.picture())).convert("RGB")
            row.append(taken.resize((HEIGHT * taken.width // taken.height, HEIGHT)))
        rows.append(row)
    width = sum(it.width for it in rows[0]) + BETWEEN * (len(SIZES) + 1)
    made = Image.new("RGB", (width, 2 * HEIGHT + 3 * BETWEEN), (128, 128, 128))
    for at, row in enumerate(rows):
        left = BETWEEN
        for it in row:
            made.paste(it, (left, BETWEEN + at * (HEIGHT + BETWEEN)))
            left += it.width + BETWEEN
    made.quantize(128).save(path, optimize=True)


def write(folder: str) -> None:
    """Play a few weighings, and write the pictures into a folder."""
    with ExitStack() as stack:
        bridge = stack.enter_context(Bridge(settings=SETTINGS)).start_counter()
        clerk = stack.enter_context(Clerk(at_of(bridge.http), 1000, 640))

        def picture(name: str) -> None:
            time.sleep(0.4)
            with open(f"{folder}/counter_{name}.png", "wb") as file:
                file.write(clerk.browser.picture())

        make_small(clerk)
        bridge.put(0)
        clerk.sees("The bridge is empty")
        clerk.sees_after(F9, "Zero is set.")
        for plate, load in (
            ("BRA-LM-2210", 12040),
            ("VER-X-901", 17330),
            ("HB-KW-77", 9170),
            ("BRA-LM-2210", 5010),
        ):
            bridge.next_vehicle(load)
            clerk.sees("Type the plate.")
            clerk.weigh(plate, "kg")
            time.sleep(0.3)
        picture("done")
        bridge.next_vehicle(4070)
        clerk.sees("Type the plate.")
        clerk.is_ready_for("HB-KW-77")
        picture("ready")
        write_sizes(clerk, f"{folder}/counter_sizes.png")
        make_small(clerk)
        clerk.browser.click("#clear")
        clerk.sees_after("HB-KW-71", "HB-KW-77 is on site")
        picture("alike")
        clerk.browser.click("#clear")
        bridge.kill_service()
        bridge.start_service()
        bridge.wait_until_up()
        clerk.sees("drive off, and on again")
        picture("restarted")
