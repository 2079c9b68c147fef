"""Decides if the empty bridge shows something other than zero, and keeps what it showed before the vehicle came.

This state machine has no clock. Its caller passes each value with its moment, the terminal's answer to `Z`, and each start of the service. The
counter knows e from its setup. It doesn't know how far zero is from the zero of the calibration. Only the service knows if that is too far, and
refuses zero then.
"""

MIN_INTERVALS = 20  # number of intervals e below which the bridge counts as empty
ASKS_AFTER = 5.0  # seconds for which the bridge is light, stable and off zero
DOUBTS_FROM = 5  # number of intervals e off zero before the vehicle came. A Single is wrong by them, because it has no second weighing
ANOTHER_MAY_COME = 5.0  # seconds without a weight, in which one vehicle may go and another come


class OffZero:
    def __init__(self, interval: int) -> None:
        self.interval = interval
        self.forget()

    def forget(self) -> None:
        """Forget everything, because the service was started. Its zero is another one, and earlier refusals don't count."""
        self.at: float | None = None  # of the last weight
        self.gross: int | None = None  # the last weight
        self.since: float | None = (
            None  # the moment from which the bridge has been light, stable and off zero
        )
        self.asked: int | None = None  # what the bridge shows, if the clerk must set zero
        self.light: int | None = (
            None  # the last stable weight of the light bridge; -20 e if it was below that
        )
        self.is_loaded = False
        self.refused_from: int | None = (
            None  # the service refused zero at this weight as too great, so also at a greater one
        )
        self.refused_to: int | None = (
            None  # the service refused zero at this weight as too small, so also at a smaller one
        )

    # ---- what comes

    def saw(self, at: float, state: str, gross: int | None) -> None:
        """Process a value that the terminal sent at the moment `at`. `gross` is None if it isn't known."""
        if self.at is not None and at - self.at > ANOTHER_MAY_COME:
            self.light = self.since = self.asked = None
        limit = MIN_INTERVALS * self.interval
        if state in ("+", "-"):
            self.at, self.gross, self.is_loaded = at, None, state == "+"
            self.light = -limit if state == "-" else self.light
            self.since = self.asked = None
        elif gross is None:
            self.since = None
        else:
            self.at, self.gross, self.is_loaded = at, gross, gross >= limit
            if self.is_loaded:
                self.since = self.asked = None
            elif state == "S":
                self._is_light(at, gross)
            else:
                self.since = None

    def _is_light(self, at: float, gross: int) -> None:
        self.light = gross
        if abs(gross) < self.interval:
            self.since = self.asked = None
            return
        self.since = at if self.since is None else self.since
        if self.asked is not None or at - self.since >= ASKS_AFTER:
            self.asked = gross

    def answered(self, reply: str) -> None:
        """Process the terminal's answer to `Z`, whichever client sent the `Z`."""
        if reply == "Z A":
            self.since = self.asked = self.refused_from = self.refused_to = None
        elif reply == "Z +" and self.gross is not None:
            self.refused_from = self.gross
        elif reply == "Z -" and self.gross is not None:
            self.refused_to = self.gross

    # ---- what the pages get

    def _is_refused(self, gross: int) -> bool:
        return (self.refused_from is not None and gross >= self.refused_from) or (
            self.refused_to is not None and gross <= self.refused_to
        )

    def shown(self) -> dict[str, int | bool | None]:
        """Return what a page shows about zero.

        `kg`: what the empty bridge shows, if the clerk must set zero. `is_refused`: the service refuses that zero. `before`: what the bridge showed
        before the vehicle that is on it, None if that isn't known. `is_doubtful`: a Single of that vehicle may be wrong by five intervals or more.
        """
        is_known = self.light is not None and abs(self.light) < DOUBTS_FROM * self.interval
        return {
            "kg": self.asked,
            "is_refused": self.asked is not None and self._is_refused(self.asked),
            "before": self.light if self.is_loaded else None,
            "is_doubtful": self.is_loaded and not is_known,
        }
