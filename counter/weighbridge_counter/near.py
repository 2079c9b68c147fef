"""Plates that were weighed before and differ by one letter from a plate on site. If a clerk types such a plate, it is no slip of the finger.

Hyphens don't count. A plate was weighed before if it has a ticket. A First without a ticket isn't enough, because its plate may be such a slip,
and the clerk withdraws it then.
"""

import string

LETTERS = string.ascii_uppercase + string.digits
MOST_ON_SITE = (
    500  # number of vehicles on site, the newest ones, for which the counter looks up neighbours
)
MOST_TOLD = 2000  # number of plates that the pages get. A page treats any other plate as never weighed, and asks once too often


def bare(plate: str) -> str:
    return plate.replace("-", "")


def neighbours(plate: str) -> set[str]:
    """Return each plate that differs by one letter more, one less or one changed, or by two neighbouring letters that changed places."""
    cuts = [(plate[:at], plate[at:]) for at in range(len(plate) + 1)]
    found = {one + other[1:] for one, other in cuts if other}
    found |= {one + it + other[1:] for one, other in cuts if other for it in LETTERS}
    found |= {one + it + other for one, other in cuts for it in LETTERS}
    found |= {one + other[1] + other[0] + other[2:] for one, other in cuts if len(other) > 1}
    return found - {plate}


def is_near(one: str, other: str) -> bool:
    """Return True if one plate is a neighbour of the other. This doesn't build all neighbours."""
    if one == other or abs(len(one) - len(other)) > 1:
        return False
    at = next(
        (it for it, (a, b) in enumerate(zip(one, other)) if a != b), min(len(one), len(other))
    )
    rest, rest_of_other = one[at:], other[at:]
    is_turned = rest[1:2] + rest[:1] == rest_of_other[:2] and rest[2:] == rest_of_other[2:]
    return (
        is_turned
        or rest[1:] == rest_of_other[1:]
        or rest[1:] == rest_of_other
        or rest == rest_of_other[1:]
    )


class Near:
    def __init__(self) -> None:
        self.weighed: set[str] = set()
        self.on_site: dict[str, None] = {}
        # by plate on site: its neighbours that were weighed before, once they have been looked up
        self.found: dict[str, set[str]] = {}

    def takes(self, kind: str, plate: str) -> None:
        """Process an entry of the journal."""
        plate = bare(plate)
        if kind == "first":
            self.on_site[plate] = None
        elif kind in ("second", "void"):
            self.on_site.pop(plate, None)
            self.found.pop(plate, None)
        if kind in ("second", "single") and plate not in self.weighed:
            self.weighed.add(plate)
            for other, found in self.found.items():
                if is_near(plate, other):
                    found.add(plate)

    def shown(self) -> list[str]:
        """Return up to `MOST_TOLD` plates that were weighed before and are near one on site. Those near the newest on site come first."""
        told: dict[str, None] = {}
        for plate in list(reversed(self.on_site))[:MOST_ON_SITE]:
            if plate not in self.found:
                self.found[plate] = neighbours(plate) & self.weighed
            told.update(dict.fromkeys(sorted(self.found[plate])))
            if len(told) >= MOST_TOLD:
                break
        return list(told)[:MOST_TOLD]
