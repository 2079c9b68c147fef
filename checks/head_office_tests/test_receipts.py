"""Receipts, by which bridges notice that the head office was restored or changed, and the head office's check of itself."""

import os
import re

from checks.lib.books import Book
from checks.lib.head_office import READER, REGISTRAR, Ended, OfficeCheck, lines_of, written

RECEIPT = re.compile(r"(\d+)\.(\d+)\.([0-9a-f]{64})\n")
FREE = "ALTER TABLE head_office.entry DROP CONSTRAINT digest_fits"
RAISED = "UPDATE head_office.entry SET gross_kg = gross_kg + 20 WHERE number = 7"
SOUND = r"^office: \d+ receipts with \d+ entries checked, open faults 0$"


class WithReceipts(OfficeCheck):
    """The base of the classes of this file. A bridge keeps its receipts."""

    seconds = 60

    def setUp(self) -> None:
        super().setUp()
        self.book = self.office.book("NORTH", 30)
        self.kept = f"{self.office.folder}/NORTH.receipt"

    def load(self, source: str | Book, name: str = "NORTH") -> Ended:
        """Load an export, or a book as it was when its last entry was the newest."""
        path = self.office.export(source) if isinstance(source, Book) else source
        return self.office.load(name, path, "--receipt", self.kept)

    def receipt(self) -> tuple[int, int]:
        """Return the journal and the number of the receipt that the bridge keeps."""
        (line,) = lines_of(self.kept)
        found = RECEIPT.fullmatch(line)
        self.assertTrue(found, line)
        assert found
        return int(found[1]), int(found[2])

    def check(self, *words: str) -> Ended:
        return self.office.run("check", *words)

    def tampers(self, *statements: str) -> None:
        """Change what is stored, as a superuser can."""
        self.office.owner("SET session_replication_role = replica", *statements)

    def faults(self) -> list[str]:
        return self.office.rows("SELECT what FROM head_office.open_office_fault ORDER BY 1")


class Receipts(WithReceipts):
    """The receipts of a bridge's loads, which it shows at the next one."""

    def test_each_load_that_adds_entries_gives_one(self) -> None:
        said = "NORTH: records 30, added 30, findings 0, new 0\n"
        self.same("the line of the load is as without", (0, said), self.load(self.book))
        journal, first = self.receipt()
        self.same("the first one", 1, first)
        self.load(self.book)
        self.same("a load that adds nothing gives the same", (journal, 1), self.receipt())
        self.load(self.book.fill(5))
        self.same("one that adds entries gives the next", (journal, 2), self.receipt())
        rows = "SELECT receipt, numbers, entries FROM head_office.receipt ORDER BY 1"
        self.same("and it says which", ["1|{[1,31)}|30", "2|{[31,36)}|5"], self.office.rows(rows))
        self.same("nothing else is left", ["NORTH.receipt"], self.beside_exports())
        self.office.book("SOUTH", 3)
        self.kept = f"{self.office.folder}/SOUTH.receipt"
        self.load(Book("SOUTH1").fill(3), "SOUTH")
        self.same("another bridge counts from one", 1, self.receipt()[1])

    def beside_exports(self) -> list[str]:
        return sorted(it for it in os.listdir(self.office.folder) if not it.endswith(".csv"))

    def test_entries_that_come_late_are_in_the_receipt_of_their_load(self) -> None:
        whole = lines_of(self.office.fresh(self.book))
        self.load(written(f"{self.office.folder}/part.csv", [whole[0], *whole[1:6], *whole[9:]]))
        self.load(self.office.fresh(self.book))
        rows = "SELECT numbers FROM head_office.receipt ORDER BY receipt"
        self.same("numbers with a gap", ["{[1,6),[9,31)}", "{[6,9)}"], self.office.rows(rows))
        self.ends("and they check", 0, SOUND, self.check("--whole"))

    def test_a_load_without_a_receipt_is_as_before(self) -> None:
        said = self.office.load("NORTH", self.office.export(self.book))[1]
        self.same("it says one line", 1, said.count("\n"))
        self.load(self.book.fill(1))
        self.same("and its receipt counts", 2, self.receipt()[1])

    def test_an_office_that_does_not_know_it_refuses_the_load(self) -> None:
        self.load(self.book)
        journal, _ = self.receipt()
        former = lines_of(self.kept)
        self.load(self.book.fill(3))
        newest = lines_of(self.kept)
        self.tampers("DELETE FROM head_office.receipt WHERE receipt = 2")
        before = self.office.state()
        wanted = f"^NORTH: refused: the bridge has receipt 2 of journal {journal}, and the newest here is 1: .* restored"
        self.ends("a newer one than the office's", 2, wanted, self.load(self.book.fill(3)))
        self.same("nothing was changed", before, self.office.state())
        self.same("the bridge keeps its own", newest, lines_of(self.kept))
        self.same("it is the office's fault", ["receipt"], self.faults())
        self.same("and no finding of the bridge", [], self.office.findings("NORTH"))
        self.load(self.book)
        self.same("which is written once", ["receipt"], self.faults())
        self.same("an older one is known", written(self.kept, former), self.kept)
        self.ends("so it loads", 0, "added 3", self.load(self.book))

    def test_another_one_of_the_same_number_is_unknown(self) -> None:
        self.load(self.book)
        journal, _ = self.receipt()
        for what, its, wanted in (
            ("another digest", f"{journal}.1.{'0' * 64}", "another one at the bridge than here"),
            ("another journal", f"{journal + 7}.1.{'0' * 64}", "no receipt of that journal"),
            ("another form", f"{journal}.1", "has another form"),
            ("letters", "'; DROP TABLE head_office.entry; --", "has another form"),
        ):
            written(self.kept, [f"{its}\n"])
            self.ends(what, 2, f"^NORTH: refused: .*{wanted}", self.load(self.book))
        self.same("nothing was dropped", 30, self.office.stored("NORTH"))

    def test_a_restored_office_accepts_them_once_somebody_says_so(self) -> None:
        self.load(self.book)
        self.tampers("DELETE FROM head_office.receipt WHERE receipt = 1")
        self.ends("it is refused before", 2, "no receipt of that journal", self.load(self.book))
        says = (
            "INSERT INTO head_office.restored (bridge, why) VALUES ('NORTH', 'the copy of Monday')"
        )
        self.refuses("a reader may not say so", "permission denied", says, READER)
        self.office.told(says, user=REGISTRAR)
        self.ends("then it is loaded", 0, "added 0", self.load(self.book))
        self.ends("and later, too", 0, "added 1", self.load(self.book.fill(1)))
        self.tampers("DELETE FROM head_office.receipt")
        self.ends("the word counts once", 2, "no receipt of that journal", self.load(self.book))

    def test_a_file_that_can_not_be_kept_loses_nothing(self) -> None:
        self.kept = f"{self.office.folder}/no/such/folder"
        found = self.load(self.book)
        wanted = "folder can't be written, so it keeps the former receipt"
        self.ends("the load is stored", 0, "added 30", found)
        self.ends("and the fault is named", 0, wanted, found)
        self.kept = self.office.folder
        self.ends("a folder is no receipt", 2, "can't be read", self.load(self.book))


class Checks(WithReceipts):
    """The faults that the head office finds if a superuser changed what it took in."""

    def setUp(self) -> None:
        super().setUp()
        self.load(self.book)
        self.load(self.book.fill(5))

    def tearDown(self) -> None:
        """Hold nothing against the entries, because the tests change them."""

    def test_a_sound_office(self) -> None:
        wanted = "office: 2 receipts with 35 entries checked, open faults 0\n"
        self.same("the first check is of all", (0, wanted), self.check())
        wanted = "office: 0 receipts with 0 entries checked, open faults 0\n"
        self.same("the next of what came since", (0, wanted), self.check())
        self.load(self.book.fill(2))
        wanted = "office: 1 receipts with 2 entries checked, open faults 0\n"
        self.same("one load later", (0, wanted), self.check())
        wanted = "office: 3 receipts with 37 entries checked, open faults 0\n"
        self.same("a whole one is of all", (0, wanted), self.check("--whole"))
        self.same(
            "a reader runs it",
            4,
            int(self.office.reads("SELECT count(*) FROM head_office.office_check")),
        )
        self.same("it says what else it can do", 2, self.check("--all")[0])
        self.same("without a server it says so", 2, self.office.run("check", PGHOST="/nowhere")[0])

    def test_what_was_changed_is_found(self) -> None:
        one = "journal = 1 AND number = 7"
        anew = (
            "digest = head_office.digest_of(number, key, kind, plate, moment AT TIME ZONE 'UTC', gross_kg,"
            " preset_kg, interval_kg, max_kg, serial, encode(previous, 'hex'))"
        )
        for what, statements, wanted in (
            ("a weight", [FREE, RAISED], "entry 7 of journal 1 doesn't fit its digest"),
            (
                "a weight and its digest",
                [
                    f"UPDATE head_office.entry SET gross_kg = gross_kg + 20, {anew.replace('gross_kg,', 'gross_kg + 20,')} WHERE {one}"
                ],
                "of the 30 entries that receipt 1 of journal 1 took in on .*, one has another digest",
            ),
            (
                "an entry removed",
                [f"DELETE FROM head_office.entry WHERE {one}"],
                "30 entries .*, 29 are here",
            ),
            ("all of them", ["DELETE FROM head_office.entry"], "30 entries .*, 0 are here"),
            (
                "a receipt",
                ["UPDATE head_office.receipt SET entries = 31 WHERE receipt = 1"],
                "the 31 entries .*, 30 are here",
            ),
            (
                "the first receipt removed",
                ["DELETE FROM head_office.receipt WHERE receipt = 1"],
                "1 receipts of journal 1 are missing before receipt 2",
            ),
        ):
            office = self.office
            copy = self.offices.copy(f"{office.database}_changed", office.database)
            self.databases.append(copy)
            self.office.database = copy
            self.tampers(*statements)
            self.ends(f"{what}: the next check", 1, wanted, self.check())
            self.ends(f"{what}: and a whole one", 1, wanted, self.check("--whole"))
            self.same(f"{what}: the bridge has no finding", [], self.office.findings("NORTH"))
            self.office.database = office.database.removesuffix("_changed")

    def test_what_only_a_whole_check_finds(self) -> None:
        self.check()
        self.tampers(FREE, RAISED)
        self.ends("what was checked before isn't read again", 0, SOUND, self.check())
        self.ends("but weekly it is", 1, "entry 7 of journal 1", self.check("--whole"))
        self.tampers("UPDATE head_office.entry SET gross_kg = gross_kg - 20 WHERE number = 7")
        self.notes()
        self.ends("a fault that somebody noted is closed", 0, SOUND, self.check("--whole"))
        self.tampers("UPDATE head_office.day_sum SET net_kg = net_kg + 1")
        self.ends("a sum", 1, "the sum, open First or year .* is kept as", self.check("--whole"))
        self.tampers("UPDATE head_office.day_sum SET net_kg = net_kg - 1")
        self.notes()
        self.tampers(
            "INSERT INTO head_office.entry SELECT journal, 99, 'K99', kind, plate, moment, gross_kg, preset_kg, interval_kg, max_kg, serial, digest, received_at, previous, year FROM head_office.entry WHERE number = 35"
        )
        self.ends(
            "an entry that no load took in", 1, "no load took in 1 entries", self.check("--whole")
        )

    def notes(self) -> None:
        self.office.told(
            "INSERT INTO head_office.office_fault_note (office_fault, note) SELECT office_fault, 'put right' FROM head_office.open_office_fault"
        )

    def test_receipts_that_were_checked_can_not_be_removed(self) -> None:
        self.check()
        self.tampers("DELETE FROM head_office.receipt WHERE receipt = 2")
        self.ends(
            "the newest", 1, "1 receipts of journal 1 are missing after receipt 1", self.check()
        )

    def test_a_year_that_is_gone(self) -> None:
        year = self.office.owner("SELECT max(year) FROM head_office.entry")
        self.office.owner(f"DROP TABLE head_office.entry_{year}")
        self.ends("its table was dropped", 1, "0 are here", self.check())

    def test_when_a_whole_check_is_due(self) -> None:
        whole = "SELECT is_whole FROM head_office.office_check ORDER BY office_check DESC LIMIT 1"
        self.ends("the first one", 0, SOUND, self.check("--due"))
        self.same("is whole", "t", self.office.reads(whole))
        self.check("--due")
        self.same("the next isn't", "f", self.office.reads(whole))
        self.tampers("UPDATE head_office.office_check SET at = at - interval '7 days'")
        self.check("--due")
        self.same("after a week it is", "t", self.office.reads(whole))

    def test_the_watch_says_so(self) -> None:
        seen = f"{self.office.folder}/watched"

        def watch() -> str:
            return self.office.run("watch", seen)[1]

        self.same("nothing", False, "head office" in watch())
        self.tampers("UPDATE head_office.receipt SET at = at - interval '3 days'")
        self.holds("no check for two days", "was not checked for two days" in watch())
        self.check("--whole")
        self.tampers(FREE, RAISED)
        self.check("--whole")
        self.holds("a fault", "the head office itself: fault 1 " in watch())
