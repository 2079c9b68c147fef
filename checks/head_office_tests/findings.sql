-- The findings of a load: changed records, broken chains, keys, partners and settings that don't fit, and how many of them are written.
BEGIN;
SET LOCAL search_path = test, tap;
SELECT plan(66);

-- Five entries are loaded. Then they are changed, and loaded again.
CREATE PROCEDURE pg_temp.begin_bridge(name text, last bigint DEFAULT 5) LANGUAGE plpgsql AS $$
BEGIN
    CALL bridge(name);
    FOR turn IN 1 .. 5 LOOP
        CALL weigh(name, 'single', 'A-1', 9000, 5000, age => interval '1 day' - turn * interval '1 minute');
    END LOOP;
    CALL loaded(name, last => last);
END $$;
CREATE PROCEDURE pg_temp.digest_again(name text, its bigint) LANGUAGE sql AS $$
UPDATE test.record r SET digest = test.digest(r.number, r.key, r.kind, r.plate, r.moment, r.gross_kg, r.preset_kg, r.interval_kg, r.max_kg, r.serial, r.previous)
WHERE book = name AND number = its $$;

CALL pg_temp.begin_bridge('U1');
UPDATE record SET gross_kg = 9020 WHERE book = 'U1' AND number = 3;
SELECT is(load('U1'), 'U1: records 5, added 0, findings 1, new 1', 'a weight was changed');
SELECT is(findings('U1'), '{unsound 3}', '  which is unsound');
SELECT is(rows($$SELECT split_part(record, ',', 6), split_part(stored, ',', 6) FROM head_office.open_finding WHERE bridge = 'U1'$$), '(9020,9000)', '  and shown next to what is stored');
SELECT is(load('U1'), 'U1: records 5, added 0, findings 1, new 0', '  once');
CALL pg_temp.begin_bridge('U2', 4);
UPDATE record SET gross_kg = 9020 WHERE book = 'U2' AND number = 5;
SELECT is(load('U2'), 'U2: records 5, added 0, findings 1, new 1', 'a new record that doesn''t fit its digest isn''t stored');
SELECT is(findings('U2'), '{unsound 5}', '  and is unsound');
UPDATE record SET gross_kg = 9000 WHERE book = 'U2' AND number = 5;
SELECT is(load('U2'), 'U2: records 5, added 1, findings 0, new 0', '  until a sound one comes');

CALL pg_temp.begin_bridge('U3');
UPDATE record SET previous = repeat('a', 64) WHERE book = 'U3' AND number = 3;
SELECT is(load('U3'), 'U3: records 5, added 0, findings 1, new 1', 'a previous digest was changed');
SELECT is(findings('U3'), '{unsound 3}', '  which is unsound');
CALL pg_temp.begin_bridge('U4');
UPDATE record SET previous = NULL WHERE book = 'U4' AND number = 3;
SELECT is(load('U4'), 'U4: records 5, added 0, findings 1, new 1', 'a previous digest was removed');
SELECT is(findings('U4'), '{unsound 3}', '  which is unsound');

CALL pg_temp.begin_bridge('D1');
UPDATE record SET gross_kg = 9020 WHERE book = 'D1' AND number = 3;
CALL pg_temp.digest_again('D1', 3);
SELECT is(load('D1'), 'D1: records 5, added 0, findings 1, new 1', 'a weight was changed and its digest computed again');
SELECT is(findings('D1'), '{differs 3}', '  which differs from what is stored');
CALL pg_temp.begin_bridge('D2');
UPDATE record SET gross_kg = 9020 WHERE book = 'D2' AND number = 3;
CALL chain('D2', 3);
SELECT is(load('D2'), 'D2: records 5, added 0, findings 1, new 1', 'and so were the digests behind it');
SELECT is(findings('D2'), '{differs 3-5}', '  which is one finding for the run');
CALL pg_temp.begin_bridge('D3');
UPDATE record SET gross_kg = 9020 WHERE book = 'D3' AND number IN (2, 4);
CALL chain('D3', 2);
SELECT is(load('D3'), 'D3: records 5, added 0, findings 2, new 2', 'two weights were changed');
SELECT is(findings('D3'), '{differs 2-3,differs 4-5}', '  which are two findings');
SELECT is(rows($$SELECT numbers FROM head_office.open_finding WHERE bridge IN ('U1', 'D3') ORDER BY finding$$), '(3) (2-3) (4-5)', '  as the view shows their numbers');
SELECT is((SELECT array_agg(gross_kg ORDER BY number) FROM head_office.entry WHERE journal = journal_of('D3')), '{9000,9000,9000,9000,9000}', '  and what is stored stays');

-- New records that don't hold the digest of the one before
CALL pg_temp.begin_bridge('C1', 3);
UPDATE record SET gross_kg = 9020 WHERE book = 'C1' AND number = 3;
CALL chain('C1', 3);
SELECT is(load('C1', newest => true, first => 4), 'C1: records 2, added 2, findings 1, new 1', 'the newest entries follow another one than what is stored');
SELECT is(findings('C1'), '{unchained 4}', '  which is unchained');
CALL pg_temp.begin_bridge('C2', 3);
UPDATE record SET previous = repeat('a', 64) WHERE book = 'C2' AND number = 5;
CALL pg_temp.digest_again('C2', 5);
SELECT is(load('C2'), 'C2: records 5, added 2, findings 1, new 1', 'a new entry doesn''t follow the one below it in the export');
SELECT is(findings('C2'), '{unchained 5}', '  which is unchained');
CALL pg_temp.begin_bridge('C3', 3);
UPDATE record SET previous = repeat('0', 64) WHERE book = 'C3' AND number = 5;
CALL pg_temp.digest_again('C3', 5);
SELECT alike(load('C3'), '%, findings 1, new 1', 'zeros between others');
SELECT is(findings('C3'), '{unchained 5}', '  are no digest of the one below');

CALL pg_temp.begin_bridge('C6', 3);
UPDATE record SET gross_kg = 9020 WHERE book = 'C6' AND number = 3;
CALL pg_temp.digest_again('C6', 3);
SELECT is(load('C6'), 'C6: records 5, added 2, findings 1, new 1', 'a stored entry was changed after the next one was weighed');
SELECT is(findings('C6'), '{differs 3}', '  and the next one follows what is stored');
CALL pg_temp.begin_bridge('C4', 3);
UPDATE record SET previous = NULL WHERE book = 'C4' AND number = 4;
CALL chain('C4', 4);
SELECT is(load('C4'), 'C4: records 5, added 2, findings 1, new 1', 'an entry of version 1 behind others of version 2');
SELECT is(findings('C4'), '{unchained 4}', '  holds no digest of the one below');
CALL bridge('C5');
CALL weigh('C5', 'single', 'A-1', 9000, 5000, version => 1);
CALL weigh('C5', 'single', 'A-1', 9000, 5000, version => 1);
SELECT alike(load('C5'), 'C5: records 2, added 2, findings 0, new 0', 'entries of version 1 behind others of version 1 need none');

CALL pg_temp.begin_bridge('M1');
SELECT is(load('M1', without => '{3,4}'), 'M1: records 3, added 0, findings 1, new 1', 'stored entries are gone at the bridge');
SELECT is(findings('M1'), '{missing 3-4}', '  and are missing');

-- Keys, partners, weights, settings
CREATE FUNCTION pg_temp.found(name text) RETURNS text[] LANGUAGE plpgsql AS $$ BEGIN PERFORM load(name); RETURN findings(name); END $$;
CALL pg_temp.begin_bridge('K1');
CALL weigh('K1', 'single', 'A-1', 9000, 5000, key => 'K2');
SELECT is(pg_temp.found('K1'), '{"key again 6"}', 'a key of a stored entry comes again');
SELECT is((SELECT record FROM head_office.finding JOIN head_office.journal USING (journal) WHERE bridge = 'K1'), 'key K2 of number 2', '  and the finding says whose');
SELECT is(load('K1'), 'K1: records 6, added 0, findings 0, new 0', '  once, when it is new');
CALL bridge('K2');
CALL weigh('K2', 'single', 'A-1', 9000, 5000, key => 'SAME');
CALL weigh('K2', 'single', 'A-1', 9000, 5000, key => 'SAME');
SELECT is(pg_temp.found('K2'), '{"key again 1","key again 2"}', 'two new entries have one key');
CALL bridge('K3');
CALL weigh('K3', 'single', 'A-1', 9000, 5000, key => 'K1');
SELECT is(pg_temp.found('K3'), '{}', 'a key of another bridge is none');
CALL bridge('P1');
CALL weigh('P1', 'void', 'A-1');
CALL weigh('P1', 'second', 'B-2', 9000);
SELECT is(pg_temp.found('P1'), '{unpaired 1,unpaired 2}', 'a Void and a Second without a First');
CALL bridge('P2');
CALL weigh('P2', 'first', 'A-1', 9000);
CALL weigh('P2', 'first', 'A-1', 9000);
SELECT is(pg_temp.found('P2'), '{"open twice 2"}', 'a First of a plate that is open');
CALL bridge('R1');
CALL weigh('R1', 'single', 'A-1', 9010, 5000);
SELECT is(pg_temp.found('R1'), '{"out of range 1"}', 'a gross that is no multiple of e');
CALL bridge('R2');
CALL weigh('R2', 'first', 'A-1', 60180);
SELECT is(pg_temp.found('R2'), '{}', 'a gross of Max + 9 e');
CALL bridge('R3');
CALL weigh('R3', 'first', 'A-1', 60200);
SELECT is(pg_temp.found('R3'), '{"out of range 1"}', 'a gross above it');
CALL bridge('R4');
CALL weigh('R4', 'single', 'A-1', 9000, 9000);
SELECT is(pg_temp.found('R4'), '{"out of range 1"}', 'a preset tare that isn''t below the gross');
CALL bridge('R5');
CALL weigh('R5', 'single', 'A-1', 9000, 8999);
SELECT is(pg_temp.found('R5'), '{}', '  and one that is');
CALL pg_temp.begin_bridge('S1');
CALL weigh('S1', 'single', 'A-1', 9000, 5000, interval_kg => 50, max_kg => 100000);
CALL weigh('S1', 'single', 'A-1', 9000, 5000, interval_kg => 50, max_kg => 100000);
SELECT is(pg_temp.found('S1'), '{setup 6}', 'another e and Max');
SELECT is((SELECT record FROM head_office.finding JOIN head_office.journal USING (journal) WHERE bridge = 'S1'),
    'e 50 kg, Max 100000 kg, serial S11; before e 20 kg, Max 60000 kg, serial S11', '  and the finding says both');
SELECT is(load('S1'), 'S1: records 7, added 0, findings 0, new 0', '  once, when it is new');
CALL pg_temp.begin_bridge('S2');
INSERT INTO head_office.instrument VALUES ('OTHER2', 'S2');
CALL weigh('S2', 'single', 'A-1', 9000, 5000, serial => 'OTHER2');
SELECT is(pg_temp.found('S2'), '{setup 6}', 'another serial of the bridge');

-- One journal under two names
CALL pg_temp.begin_bridge('T1');
CALL copy_book('T1', 'T2');
CALL bridge('T2');
ALTER TABLE head_office.instrument DISABLE TRIGGER ALL;
UPDATE head_office.instrument SET bridge = 'T2' WHERE serial = 'T11';
ALTER TABLE head_office.instrument ENABLE TRIGGER ALL;
SELECT is(load('T2'), 'T2: records 5, added 5, findings 1, new 1', 'a journal that another bridge has');
SELECT is(findings('T2'), '{"two names 1"}', '  is a finding');
CALL pg_temp.begin_bridge('T3');
CALL new_file('T3');
SELECT is(load('T3'), 'T3: records 5, added 0, findings 0, new 0', 'the export of a former file goes to that file');

-- How much is written: a hundred findings of a load, by what matters most, and how many more
CALL bridge('MANY');
DO $$
BEGIN
    FOR turn IN 1 .. 103 LOOP
        INSERT INTO test.record VALUES ('MANY', turn, 'K' || turn, 'single', 'A-1', test.present() AT TIME ZONE 'UTC', 9010, 5000, 20, 60000, 'MANY1', '', '');
    END LOOP;
END $$;
CALL chain('MANY');
UPDATE record SET key = 'CHANGED' WHERE book = 'MANY' AND number = 103;
SELECT is(load('MANY'), 'MANY: records 103, added 102, findings 103, new 101', 'of 103 findings a hundred are written, and one that says how many more');
SELECT is((SELECT record FROM head_office.finding WHERE journal = journal_of('MANY') AND what = 'more'), '3 more findings: out of range 3', '  of each kind');
SELECT is((SELECT first FROM head_office.finding WHERE journal = journal_of('MANY') AND what = 'unsound'), 103::bigint, '  and what matters most comes first');
SELECT is((SELECT count(*) FROM head_office.finding WHERE journal = journal_of('MANY') AND what = 'out of range'), 99::bigint, '  so that the others have 99');
CALL bridge('HUNDRED');
INSERT INTO record SELECT 'HUNDRED', number, key, kind, plate, moment, gross_kg, preset_kg, interval_kg, max_kg, 'HUNDRED1', '', '' FROM record WHERE book = 'MANY' AND number <= 100;
CALL chain('HUNDRED');
SELECT is(load('HUNDRED'), 'HUNDRED: records 100, added 100, findings 100, new 100', 'a hundred findings are written');

-- A load prints how it went, then each of the first twenty findings with what is stored and what to do.
CALL give('U1');
SELECT is((SELECT count(*) FROM head_office.take_in('U1')), 1::bigint, 'nothing new is one line');
DROP TABLE taken, compared, found, touched, delta, paired;
CALL bridge('SAID');
CALL weigh('SAID', 'single', 'A-1', 9000, 5000);
CALL loaded('SAID');
UPDATE record SET gross_kg = 9020 WHERE book = 'SAID';
CALL give('SAID');
CREATE TEMPORARY TABLE said AS SELECT s, place FROM head_office.take_in('SAID') WITH ORDINALITY AS t (s, place);
SELECT is((SELECT s FROM said WHERE place = 1), 'SAID: records 1, added 0, findings 1, new 1', 'the first line is how the load went');
SELECT alike((SELECT s FROM said WHERE place = 2), 'unsound 1: 1,K1,single,A-1,%,9020,5000,20,60000,SAID1,%', 'the next one is the record that came');
SELECT alike((SELECT s FROM said WHERE place = 3), '  stored here: 1,K1,single,A-1,%,9000,5000,20,60000,SAID1,%', '  then the one that is stored');
SELECT is((SELECT s FROM said WHERE place = 4), '  ' || (SELECT to_do FROM head_office.advice WHERE what = 'unsound'), '  and what to do');
SELECT is((SELECT count(*) FROM said), 4::bigint, '  and that is all');
DROP TABLE taken, compared, found, touched, delta, paired;
CALL bridge('LINES');
INSERT INTO record SELECT 'LINES', number, key, kind, plate, moment, gross_kg, preset_kg, interval_kg, max_kg, 'LINES1', '', '' FROM record WHERE book = 'MANY' AND number <= 25;
CALL chain('LINES');
CALL give('LINES');
SELECT is((SELECT count(*) FROM head_office.take_in('LINES')), 61::bigint, 'of 25 findings twenty are printed, three lines each, behind the first one');
SELECT is((SELECT string_agg(what, ',' ORDER BY rank) FROM head_office.advice WHERE rank <= 5), 'replaced,differs,unsound,missing,unchained', 'what points at a changed journal comes first');
SELECT is((SELECT count(DISTINCT rank) FROM head_office.advice), (SELECT count(*) FROM head_office.advice), 'no two findings have one rank');
SELECT is((SELECT count(*) FROM head_office.advice WHERE means = '' OR to_do = ''), 0::bigint, 'each finding has a meaning and something to do');
SELECT * FROM finish();
ROLLBACK;
