"""A service that runs, and is asked over its office for its export."""

from checks.lib import bridge, program
from checks.lib.case import PROGRAM
from checks.lib.head_office import DAY, OfficeCheck
from checks.lib.journal import make_journal
from checks.lib.tampering import File


class Service(OfficeCheck):
    """A purge at the bridge is no finding, and a weighing arrives by the next load."""

    needs = (PROGRAM, "PostgreSQL", "sqitch", "curl")
    seconds = 12

    def test_service(self) -> None:
        office, path = self.office, f"{self.office.folder}/LIVE.db"
        make_journal(path, 300, 20 * DAY, "LIVE1")
        File(path).do("UPDATE journal SET moment = moment - ? WHERE number <= 200", 40 * DAY)
        File(path).relink(1)
        office.register("LIVE")
        words = ["--serial", "LIVE1", "--capacity", "10000", "--retention", "30"]
        service = self.enterContext(
            bridge.Service(program.compiled(), path, bridge.Played(50.0), *words)
        )
        address = f"http://{bridge.HOST}:{service.office}/journal.csv"
        what = "over the office of a service that runs"
        wanted = "^LIVE: records {}, added {}, findings 0"
        self.loads(what, "LIVE", address, wanted.format(300, 300))
        purged = bridge.post(service, "/purge")
        self.same("a purge of what is past retention", (200, "PURGED 200\n"), purged)
        self.loads("is no finding", "LIVE", address, wanted.format(100, 0))
        self.same("and what was purged stays here", 300, office.stored("LIVE"))
        service.put(0)
        service.put(9170)
        answer = bridge.post(service, "/weighings", "key=K1000&kind=first&plate=LIVE-1")
        self.holds("a weighing", answer and answer[0] == 201, answer)
        self.loads("arrives by the next load", "LIVE", address, wanted.format(101, 1))
        asked = "SELECT bridge, plate, number, gross_kg FROM head_office.on_site"
        self.same("and its vehicle is on site", "LIVE|LIVE-1|301|18340", office.reads(asked))
