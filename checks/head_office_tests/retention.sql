-- How long an entry must be kept at the bridge, and what is found if it is gone before. Days are days of UTC.
BEGIN;
SET LOCAL search_path = test, tap;
SELECT plan(49);
SET LOCAL timezone = 'America/New_York';

-- Midnight of UTC, a number of days ago
CREATE FUNCTION pg_temp.midnight(days integer) RETURNS timestamptz LANGUAGE sql AS $$ SELECT (((now() AT TIME ZONE 'UTC')::date - days)::timestamp) AT TIME ZONE 'UTC' $$;
SELECT ok(NOT head_office.is_of_age(pg_temp.midnight(30), 30), 'an entry of the first second of the 30th day before today is kept');
SELECT ok(NOT head_office.is_of_age(pg_temp.midnight(29) - interval '1 second', 30), '  and so is one of its last second');
SELECT ok(head_office.is_of_age(pg_temp.midnight(30) - interval '1 second', 30), 'one of the 31st day before today may be purged');
SELECT ok(head_office.is_of_age(pg_temp.midnight(31), 30), '  from its first second on');
SELECT ok(NOT head_office.is_of_age(pg_temp.midnight(1), 1), 'with one day, one of yesterday is kept');
SELECT ok(head_office.is_of_age(pg_temp.midnight(2), 1), '  and one of the day before is not');
SELECT ok(head_office.is_of_age(NULL, 30), 'nothing is past retention as well');

-- Two old entries and a new one. The newest export lacks the first or both.
CREATE FUNCTION pg_temp.purged(name text, moment timestamptz, days integer, without bigint[] DEFAULT '{1,2}') RETURNS text[] LANGUAGE plpgsql AS $$
BEGIN
    CALL bridge(name, days);
    CALL weigh(name, 'single', 'A-1', 9000, 5000, at => moment AT TIME ZONE 'UTC');
    CALL weigh(name, 'single', 'A-1', 9000, 5000, at => moment AT TIME ZONE 'UTC');
    CALL weigh(name, 'single', 'A-1', 9000, 5000);
    CALL loaded(name);
    PERFORM load(name, without => without);
    RETURN findings(name);
END $$;
SELECT is(pg_temp.purged('A1', pg_temp.midnight(31), 30), '{}', 'a purge of entries past retention is no finding');
SELECT is(pg_temp.purged('A2', pg_temp.midnight(30) - interval '1 second', 30), '{}', '  from the first day on');
SELECT is(pg_temp.purged('A3', pg_temp.midnight(30), 30), '{early 2}', 'a purge a day early is one');
SELECT is(pg_temp.purged('A4', pg_temp.midnight(29) - interval '1 second', 30), '{early 2}', '  until the end of that day');
SELECT is(pg_temp.purged('A5', pg_temp.midnight(90), 90), '{early 2}', '  and so it is with 90 days');
SELECT is(pg_temp.purged('A6', pg_temp.midnight(91), 90), '{}', '  of which the 91st is not');
SELECT is(pg_temp.purged('A7', pg_temp.midnight(10), 30, '{1}'), '{early 1}', 'a purge of one of them names that one');
SELECT is(pg_temp.purged('A8', pg_temp.midnight(31), 30, '{2}'), '{missing 2}', 'an entry between others isn''t purged, however old it is');
SELECT is((SELECT record FROM head_office.finding JOIN head_office.journal USING (journal) WHERE bridge = 'A3'), 'gone with all before, and kept for 30 days',
    'the finding says for how long entries are kept');

-- A part of an export is no purge
CALL bridge('NEWEST');
CALL weigh_pairs('NEWEST', 3);
CALL loaded('NEWEST');
CALL weigh('NEWEST', 'single', 'A-1', 9000, 5000);
SELECT is(load('NEWEST', newest => true, first => 5), 'NEWEST: records 3, added 1, findings 0, new 0', 'the newest entries lack all before, which is no finding');

-- Entries that were never received
CREATE FUNCTION pg_temp.first_load(name text, without bigint[]) RETURNS text[] LANGUAGE plpgsql AS $$
BEGIN
    CALL bridge(name);
    CALL weigh_pairs(name, 3);
    PERFORM load(name, without => without);
    RETURN findings(name);
END $$;
SELECT is(pg_temp.first_load('B1', '{}'), '{}', 'a first load from number 1 on has no finding');
SELECT is(pg_temp.first_load('B2', '{1,2}'), '{unseen 1-2}', 'what was gone before it is unseen');
SELECT is(pg_temp.first_load('B3', '{3,4}'), '{unseen 3-4}', '  also between others');
CALL bridge('GAP');
CALL weigh_pairs('GAP', 3);
CALL loaded('GAP', last => 2);
SELECT is(load('GAP', without => '{1,2,3,4}'), 'GAP: records 2, added 2, findings 2, new 2', 'a later load lacks stored entries and others');
SELECT is(findings('GAP'), '{early 2,unseen 3-4}', '  of which the stored ones are early, and the others unseen');

-- The end is gone
CALL bridge('SHORT');
CALL weigh_pairs('SHORT', 3);
CALL loaded('SHORT');
SELECT is(load('SHORT', last => 4), 'SHORT: records 4, added 0, findings 1, new 1', 'an export that ends before what is stored');
SELECT is(findings('SHORT'), '{shorter 5-6}', '  is a finding');
SELECT is(load('SHORT', last => 4), 'SHORT: records 4, added 0, findings 1, new 0', '  once');
SELECT is((SELECT count(*) FROM head_office.entry WHERE journal = journal_of('SHORT')), 6::bigint, '  and what is stored stays');
CALL new_file('SHORT');
UPDATE head_office.journal SET note = 'new' WHERE journal = journal_of('SHORT');
SELECT is(load('SHORT', last => 2), 'SHORT: records 2, added 0, findings 0, new 0', 'an older export of a former journal is none');

-- Everything is gone
CALL bridge('EMPTY', 30);
CALL weigh('EMPTY', 'single', 'A-1', 9000, 5000, at => pg_temp.midnight(30) AT TIME ZONE 'UTC');
CALL loaded('EMPTY');
SELECT is(load('EMPTY', without => '{1}'), 'EMPTY: refused: the export has no record, and entries up to 1 had to be kept: if the bridge goes on with a new file, register it',
    'an export without a record is refused while entries must be kept');
SELECT is(findings('EMPTY'), '{refused}', '  which is a finding');
CALL bridge('EMPTIED', 30);
CALL weigh('EMPTIED', 'single', 'A-1', 9000, 5000, at => pg_temp.midnight(31) AT TIME ZONE 'UTC');
CALL loaded('EMPTIED');
SELECT is(load('EMPTIED', without => '{1}'), 'EMPTIED: records 0, added 0, findings 0, new 0', '  and is taken a day later');
CALL bridge('NOTHING');
SELECT is(load('NOTHING'), 'NOTHING: records 0, added 0, findings 0, new 0', 'a new bridge''s export has no record');

-- Zeros as the previous digest of a new entry: the one below was purged in time, or the chain was cut
CREATE FUNCTION pg_temp.zeros(name text, below interval, days integer, last bigint DEFAULT 2) RETURNS text[] LANGUAGE plpgsql AS $$
BEGIN
    CALL bridge(name, days);
    CALL weigh(name, 'single', 'A-1', 9000, 5000, age => below);
    CALL loaded(name);
    CALL weigh(name, 'single', 'A-1', 9000, 5000, age => '0 s');
    UPDATE record r SET previous = repeat('0', 64), digest = test.digest(r.number, r.key, r.kind, r.plate, r.moment, r.gross_kg, r.preset_kg, r.interval_kg, r.max_kg, r.serial, repeat('0', 64))
        WHERE book = name AND number = 2;
    PERFORM load(name, without => '{1}');
    RETURN findings(name);
END $$;
SELECT is(pg_temp.zeros('Z1', '40 days', 30), '{}', 'an entry after a purge of all holds zeros');
SELECT is(pg_temp.zeros('Z2', '30 days', 30), '{unchained 2,early 1}', '  but not if the one below had to be kept');
SELECT is(pg_temp.zeros('Z3', '31 days', 30), '{}', '  which it hadn''t a day later');

CALL bridge('Z4', 30);
CALL weigh('Z4', 'single', 'A-1', 9000, 5000, age => '40 days');
CALL weigh('Z4', 'single', 'A-1', 9000, 5000);
UPDATE record r SET previous = repeat('0', 64), digest = test.digest(r.number, r.key, r.kind, r.plate, r.moment, r.gross_kg, r.preset_kg, r.interval_kg, r.max_kg, r.serial, repeat('0', 64))
    WHERE book = 'Z4' AND number = 2;
SELECT is(load('Z4'), 'Z4: records 2, added 2, findings 1, new 1', 'zeros behind an entry that the export has');
SELECT is(findings('Z4'), '{unchained 2}', '  are no digest of it, however old it is');

-- Retention that is lowered would hide a purge
CALL bridge('LOWER', 90);
UPDATE head_office.bridge SET retention_days = 120 WHERE bridge = 'LOWER';
SELECT is(findings('LOWER'), '{}', 'more days are no finding');
UPDATE head_office.bridge SET retention_days = 30 WHERE bridge = 'LOWER';
SELECT is(findings('LOWER'), '{lowered}', 'fewer days are one');
SELECT is((SELECT record FROM head_office.finding JOIN head_office.journal USING (journal) WHERE bridge = 'LOWER'), 'from 120 to 30 days, by keeper', '  with both, and who did it');
UPDATE head_office.bridge SET retention_days = 20 WHERE bridge = 'LOWER';
UPDATE head_office.bridge SET retention_days = 30 WHERE bridge = 'LOWER';
UPDATE head_office.bridge SET retention_days = 20 WHERE bridge = 'LOWER';
SELECT is(findings('LOWER'), '{lowered,lowered,lowered}', '  each time');
SELECT is((SELECT places FROM head_office.bridge WHERE bridge = 'LOWER'), NULL, 'no places were registered');

-- Places of a journal: one for an entry, and one more for an open First
CREATE FUNCTION pg_temp.full(name text, its_places integer, pairs integer, open integer DEFAULT 0, newest boolean DEFAULT false) RETURNS text[] LANGUAGE plpgsql AS $$
BEGIN
    CALL bridge(name, places => its_places);
    CALL weigh_pairs(name, pairs);
    FOR turn IN 1 .. open LOOP
        CALL weigh(name, 'first', 'O-' || turn, 10000);
    END LOOP;
    PERFORM load(name, newest => newest);
    RETURN findings(name);
END $$;
SELECT is(pg_temp.full('F1', 20, 9), '{}', 'nine of ten places are no finding');
SELECT is(pg_temp.full('F2', 21, 9, 1), '{"nearly full"}', '  and more than nine of ten are');
SELECT is(pg_temp.full('F3', 20, 8, 1), '{}', 'an open First takes two places');
SELECT is(pg_temp.full('F4', 20, 8, 2), '{"nearly full"}', '  and two take four');

-- The same finding comes again thirty days after somebody acknowledged it.
SELECT is(load('F4'), 'F4: records 18, added 0, findings 0, new 0', 'a journal that is nearly full is a finding once');
INSERT INTO head_office.acknowledgement (finding, note, at) SELECT finding, 'soon', now() - interval '30 days' FROM head_office.finding WHERE journal = journal_of('F4');
CALL weigh('F4', 'first', 'O-9', 10000);
SELECT is(load('F4'), 'F4: records 19, added 1, findings 1, new 1', '  and again thirty days after it was acknowledged');
CALL bridge('F5', places => 20);
CALL weigh_pairs('F5', 10);
SELECT is(load('F5'), 'F5: records 20, added 20, findings 1, new 1', 'another one');
INSERT INTO head_office.acknowledgement (finding, note, at) SELECT finding, 'soon', now() - interval '29 days 23 hours' FROM head_office.finding WHERE journal = journal_of('F5');
SELECT is(load('F5'), 'F5: records 20, added 0, findings 0, new 0', '  but not before');
SELECT * FROM finish();
ROLLBACK;
