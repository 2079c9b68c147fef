"""Decides which client gives way to a newcomer, and whose time is over. Has no clock and no sockets.

An address is a client's IP address without its port. An address with many connections keeps the others out only while the counter works on a request
of each.
"""

import enum
from collections import Counter
from dataclasses import dataclass

MOST = 400  # connections; with those to be refused, the terminal, the office, ports and files they are fewer than the unit's 1,024 descriptors
MOST_REFUSED = (
    64  # connections beyond these, each of which gets a 503; the counter cuts one more at once
)
HEAD_WITHIN = 5.0  # seconds from a request's first byte to the end of its head
BODY_WITHIN = 5.0  # seconds from there to the end of its body
ANSWERED_WITHIN = 5.0  # seconds from the end of a client's half to the end of its response
TAKEN_WITHIN = 30.0  # seconds that a client may take for its response
TAKES_SLOWLY = 2.0  # seconds after which it may have to give way
SILENT_FOR = 75.0  # seconds between two requests


class Doing(enum.Enum):
    """The state of a client."""

    NOTHING = "nothing of a request came"
    SENDING = "sends a request's head"
    SENDING_BODY = "sends a request's body"
    ASKING = "waits for the response"
    TAKING = "takes the response"
    LISTENING = "has an event stream"


WITHIN = {
    Doing.NOTHING: (SILENT_FOR, "it sent no request"),
    Doing.SENDING: (HEAD_WITHIN, "it sent no whole head"),
    Doing.SENDING_BODY: (BODY_WITHIN, "it sent no whole body"),
    Doing.TAKING: (TAKEN_WITHIN, "it didn't take its whole response"),
}
WITHOUT_REQUEST = (Doing.NOTHING, Doing.SENDING, Doing.SENDING_BODY)


@dataclass(eq=False)
class Client:
    """A client, and what it does since a moment, in seconds. `is_refused` if it has no place, and gets a 503."""

    address: str
    since: float
    doing: Doing = Doing.NOTHING
    ended: float | None = None  # when it ended its half of the connection
    is_refused: bool = False

    def does(self, doing: Doing, now: float) -> None:
        """Note what the client does. Its time begins only if it did something else before."""
        if doing is not self.doing:
            self.doing, self.since = doing, now

    def overdue(self, now: float) -> str | None:
        """Return why its time is over, or None if it isn't."""
        within, why = WITHIN.get(self.doing, (None, ""))
        if self.is_refused and self.doing is Doing.NOTHING:
            within = HEAD_WITHIN
        if within is not None and now - self.since > within:
            return f"{why} within {within:.0f} seconds"
        if self.ended is not None and now - self.ended > ANSWERED_WITHIN:
            return f"it ended its half {ANSWERED_WITHIN:.0f} seconds ago"
        return None


class Places:
    """The clients that are connected."""

    def __init__(self, most: int = MOST, most_refused: int = MOST_REFUSED) -> None:
        self.most, self.most_refused = most, most_refused
        self.clients: set[Client] = set()

    def take(self, newcomer: Client) -> Client | None:
        """Let a newcomer in. Return the client that has to give way to it, or None if there is a free place, or none for it.

        One without a place is refused. It may be one too many even for that: then it has to give way itself.
        """
        gives_way = None
        if self.count() >= self.most:
            gives_way = self.who_gives_way(newcomer.address, newcomer.since)
            newcomer.is_refused = gives_way is None
        if newcomer.is_refused and len(self.clients) - self.count() >= self.most_refused:
            return newcomer
        if gives_way is not None:
            self.clients.discard(gives_way)
        self.clients.add(newcomer)
        return gives_way

    def leave(self, client: Client) -> None:
        self.clients.discard(client)

    def count(self) -> int:
        """Return how many clients have a place."""
        return sum(not it.is_refused for it in self.clients)

    def who_gives_way(self, address: str, now: float) -> Client | None:
        """Return who gives way to a newcomer of an address, or None if nobody does.

        It is the one that has waited longest without a whole request, of the address that has most places. If nobody waits, it is a slow reader, and
        then the newest event stream, of the address that has most places, if that has more than the newcomer's will have. A request that is worked on
        never gives way. Nor does anybody whose address has fewer places than the newcomer's.
        """
        placed = [it for it in self.clients if not it.is_refused]
        places = Counter(it.address for it in placed)
        own = places[address]
        if waiting := [
            it for it in placed if it.doing in WITHOUT_REQUEST and places[it.address] >= own
        ]:
            return max(waiting, key=lambda it: (places[it.address], -it.since))
        of_many = [it for it in placed if places[it.address] >= own + 2]
        if slow := [
            it for it in of_many if it.doing is Doing.TAKING and now - it.since > TAKES_SLOWLY
        ]:
            return max(slow, key=lambda it: (places[it.address], -it.since))
        if listening := [it for it in of_many if it.doing is Doing.LISTENING]:
            return max(listening, key=lambda it: (places[it.address], it.since))
        return None

    def overdue(self, now: float) -> list[tuple[Client, str]]:
        """Return the clients whose time is over, and why."""
        return [(it, why) for it in self.clients if (why := it.overdue(now)) is not None]


TOLD_AGAIN_AFTER = 60.0  # seconds
MOST_LINES = 32  # different lines in that time


class Lines:
    """The log's lines about clients. The log has a line that repeats once, and a minute later how often it came again."""

    def __init__(self) -> None:
        self.repeated: dict[tuple[str, str], int] = {}
        self.began = float("-inf")

    def put(self, address: str, what: str, now: float) -> list[str]:
        """Return the lines to log about a client of this address. Beyond a bound, all other lines of a minute count as one."""
        told = self.end(now)
        if not self.repeated:
            self.began = now
        key = (address, what)
        if key not in self.repeated and len(self.repeated) >= MOST_LINES:
            key = ("other addresses", "other causes")
        if key not in self.repeated:
            self.repeated[key] = 0
            return [*told, f"{key[0]}: {key[1]}"]
        self.repeated[key] += 1
        return told

    def end(self, now: float) -> list[str]:
        """Return what repeated in the minute that is over, if one is."""
        if not self.repeated or now - self.began <= TOLD_AGAIN_AFTER:
            return []
        told = [
            f"{address}: {what}: {count} more in {TOLD_AGAIN_AFTER:.0f} seconds"
            for (address, what), count in self.repeated.items()
            if count
        ]
        self.repeated.clear()
        return told
