"""A day of readings, lines of the terminal and requests of every kind, each request made twice, as a trace.

The checks that make such a day use it.
"""

from collections.abc import Iterator

MORNING = 1_741_593_600
OF_AGE = 1_749_427_200
READINGS = {"empty": "r 0 4", "full": "r 9170 4", "half": "r 4070 4"}
DAY = (
    "empty;t Z;full;t SI;t S;POST /weighings key=K1&kind=first&plate=AB-12;empty;t TA 5000 kg;"
    "full;POST /weighings key=K2&kind=single&plate=CD-34;t TAC;"
    "POST /weighings key=K3&kind=first&plate=EF-56;empty;full;"
    "POST /weighings key=K%34&kind=first&plate=EF-56;POST /voids key=K5&plate=EF-56;empty;t S;"
    "half;POST /weighings key=K6&kind=second&plate=AB-12;GET /tickets/5;GET /check;"
    "GET /journal.csv;GET /tickets.csv;GET /indication;GET /none;purge;"
    "POST /weighings key=K1&kind=first&plate=AB-12;t SI;t TA;t I0"
).split(";")


def lines() -> Iterator[str]:
    """Yield the lines of the trace."""
    for step in DAY:
        if step in READINGS:
            yield READINGS[step]
        elif step.startswith("t "):
            yield step
        elif step == "purge":
            yield from [f"o {OF_AGE} POST /purge"] * 2
        else:
            yield from [f"o {MORNING} {step}"] * 2


def trace() -> str:
    return "\n".join(lines()) + "\n"
