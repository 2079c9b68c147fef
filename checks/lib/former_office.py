"""Head offices as former packages made them: of versions 1 to 7 by their numbered files, of version 8 by the package 2.1.1, of version 9 by the last one before sqitch.

checks/data/head_office_former.tar.gz has the `schema`, `functions.sql`, `upgrade`, `load` and `load.sql` of both packages.
"""

import os
import tarfile

from checks import TOP
from checks.lib import cluster as clusters

ARCHIVE = TOP / "checks" / "data" / "head_office_former.tar.gz"
PACKAGES = {8: "2.1.1", 9: "9"}


def unpack(folder: str) -> str:
    """Unpack both packages into a folder, unless they are there already. Return the folder that has them, by the names of PACKAGES."""
    packages = os.path.join(folder, "former")
    if not os.path.exists(packages):
        with tarfile.open(ARCHIVE) as it:
            it.extractall(folder)
    return packages


def make(cluster: clusters.Cluster, folder: str, version: int, database: str) -> None:
    """Make a head office of this version in an empty database."""
    packages = unpack(folder)
    if version in PACKAGES:
        status, said = cluster.run([f"{packages}/{PACKAGES[version]}/upgrade"], database=database)
        if status:
            raise RuntimeError(f"version {version}: {said}")
        return
    words = ["psql", "-X", "-q", "-v", "ON_ERROR_STOP=1", "--single-transaction", "-f"]
    for number in range(1, version + 1):
        file = f"{packages}/9/schema/{number}.sql"
        status, said = cluster.run([*words, file], database=database)
        if status:
            raise RuntimeError(f"version {version}: {said}")


def load(
    cluster: clusters.Cluster,
    bridge: str,
    export: str,
    user: str,
    database: str,
    is_chained: bool = True,
) -> tuple[int, str]:
    """Load an export as the bridges of versions 2 to 4 did, or those of version 1 if it isn't chained. Return the status, and what was printed."""
    more = ", previous" if is_chained else ""
    columns = f"number, key, kind, plate, moment, gross_kg, preset_kg, interval_kg, max_kg, serial, digest{more}"
    texts = f"key, kind, plate, serial, digest{more}"
    words = [
        *["psql", "-X", "-q", "-A", "-t", "-v", "ON_ERROR_STOP=1", "-c", "BEGIN"],
        "-c",
        f"\\copy head_office.handed ({columns}) from pstdin with (format csv, header match, force_not_null ({texts}), encoding 'UTF8')",
        *["-c", f"SELECT head_office.take_in('{bridge}')", "-c", "COMMIT"],
    ]
    with open(export, "rb") as it:
        return cluster.run(words, user, database, it.read())
