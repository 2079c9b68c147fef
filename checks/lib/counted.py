"""Cases of a check: a line each, and how many passed and failed."""

counts = [0, 0]


def case(name: str, is_so: object, found: object = "") -> None:
    counts[0 if is_so else 1] += 1
    print(
        f"{'ok    ' if is_so else 'FAILED'} {name}{'' if is_so else f': {found!r:.1000}'}",
        flush=True,
    )


def same(name: str, wanted: object, found: object) -> None:
    case(name, wanted == found, found)
