-- `unsound_entry` and `unchained_entry` show stored entries that were changed. A superuser changes them here, with triggers and constraints off.
BEGIN;
SET LOCAL search_path = test, tap;
SELECT plan(32);
CREATE FUNCTION pg_temp.unsound() RETURNS text LANGUAGE sql AS $$ SELECT rows('SELECT bridge, number FROM head_office.unsound_entry ORDER BY number') $$;
CREATE FUNCTION pg_temp.unchained() RETURNS text LANGUAGE sql AS $$ SELECT rows('SELECT bridge, number FROM head_office.unchained_entry ORDER BY number') $$;

CALL bridge('NORTH', 30);
CALL weigh('NORTH', 'first', 'A-1', 10000, at => '2025-06-01 08:00:00');            -- 1
CALL weigh('NORTH', 'second', 'A-1', 30000, at => '2025-06-01 09:00:00');           -- 2
CALL weigh('NORTH', 'single', 'B-2', 18000, 5000, at => '2025-06-20 08:00:00');     -- 3
CALL weigh('NORTH', 'first', 'C-3', 10000, at => '2025-07-20 09:00:00');            -- 4
CALL weigh('NORTH', 'void', 'C-3', at => '2025-07-21 09:00:00');                    -- 5
CALL loaded('NORTH');
SELECT is(pg_temp.unsound(), '', 'after a load each entry is sound');
SELECT is(pg_temp.unchained(), '', '  and holds the digest of the one before');
CALL bridge('OLD', 30);
CALL weigh('OLD', 'first', 'A-1', 10000, version => 1);
CALL weigh('OLD', 'second', 'A-1', 12000, version => 1);
CALL loaded('OLD');
SELECT is(pg_temp.unsound(), '', 'entries of version 1 are sound');
SELECT is(pg_temp.unchained(), '', '  and hold no digest of the one before');

-- The constraints refuse what doesn't fit its digest, even of a superuser who turns the triggers off.
SET LOCAL session_replication_role = replica;
SELECT throws_ok('UPDATE head_office.entry SET gross_kg = 20000 WHERE number = 3', '23514', NULL, 'a superuser without triggers changes no weight');
SELECT throws_ok('UPDATE head_office.entry SET digest = digest || ''x'' WHERE number = 3', '23514', NULL, '  and no digest');
ALTER TABLE head_office.entry DROP CONSTRAINT digest_fits;
CREATE FUNCTION pg_temp.of_one(field text, wanted text) RETURNS SETOF text LANGUAGE plpgsql AS $$
DECLARE
    its   integer := journal_of('NORTH');
    was   text;
BEGIN
    EXECUTE format('SELECT (%s)::text FROM head_office.entry WHERE journal = %s AND number = 3', field, its) INTO was;
    EXECUTE format('UPDATE head_office.entry SET %I = %s WHERE journal = %s AND number = 3', field, wanted, its);
    RETURN NEXT is(pg_temp.unsound(), '(NORTH,3)', 'another ' || field || ' is unsound');
    EXECUTE format('UPDATE head_office.entry SET %I = %L WHERE journal = %s AND number = 3', field, was, its);
END $$;
SELECT pg_temp.of_one('key', $$'OTHER'$$);
SELECT pg_temp.of_one('plate', $$'B-3'$$);
SELECT pg_temp.of_one('moment', $$moment + interval '1 second'$$);
SELECT pg_temp.of_one('gross_kg', '18020');
SELECT pg_temp.of_one('preset_kg', '4980');
SELECT pg_temp.of_one('interval_kg', '10');
SELECT pg_temp.of_one('max_kg', '50000');
SELECT pg_temp.of_one('serial', $$'NORTH2'$$);
SELECT pg_temp.of_one('digest', $$decode(repeat('00', 32), 'hex')$$);
SELECT pg_temp.of_one('previous', $$decode(repeat('00', 32), 'hex')$$);
SELECT pg_temp.of_one('previous', 'NULL');
SELECT is(pg_temp.unsound(), '', 'all fields are as they were');
UPDATE head_office.entry SET number = 6 WHERE journal = journal_of('NORTH') AND number = 5;
SELECT is(pg_temp.unsound(), '(NORTH,6)', 'another number is unsound');
UPDATE head_office.entry SET number = 5 WHERE journal = journal_of('NORTH') AND number = 6;
UPDATE head_office.entry SET kind = 'second', gross_kg = 10000 WHERE journal = journal_of('NORTH') AND number = 5;
SELECT is(pg_temp.unsound(), '(NORTH,5)', 'another kind is unsound');
UPDATE head_office.entry SET kind = 'void', gross_kg = NULL WHERE journal = journal_of('NORTH') AND number = 5;
UPDATE head_office.entry SET gross_kg = 10020 WHERE journal = journal_of('OLD') AND number = 1;
SELECT is(pg_temp.unsound(), '(OLD,1)', 'another weight of version 1 is unsound');
UPDATE head_office.entry SET gross_kg = 10000 WHERE journal = journal_of('OLD') AND number = 1;

-- A weight is changed, and the digest of that entry computed again: the one behind it shows that.
CREATE PROCEDURE pg_temp.change(its bigint, gross integer) LANGUAGE plpgsql AS $$
BEGIN
    UPDATE head_office.entry e SET gross_kg = gross, digest = decode(test.digest(e.number, key, kind, plate, moment AT TIME ZONE 'UTC', gross, preset_kg,
        interval_kg, max_kg, serial, encode(previous, 'hex')), 'hex') WHERE journal = journal_of('NORTH') AND number = its;
END $$;
CALL pg_temp.change(3, 20000);
SELECT is(pg_temp.unsound(), '', 'a digest that was computed again is sound');
SELECT is(pg_temp.unchained(), '(NORTH,4)', '  and the entry behind it is unchained');
CALL pg_temp.change(3, 18000);
SELECT is(pg_temp.unchained(), '', '  until it is as it was');
CALL pg_temp.change(5, NULL);
SELECT is(pg_temp.unchained(), '', 'of the last one nothing shows it');

-- Zeros stand where the one before was past retention, and purged: on the 31st day after it.
CREATE FUNCTION pg_temp.zeros(moment timestamptz) RETURNS text LANGUAGE plpgsql AS $$
BEGIN
    UPDATE head_office.entry e SET moment = zeros.moment, previous = decode(repeat('00', 32), 'hex') WHERE journal = journal_of('NORTH') AND number = 4;
    CALL pg_temp.change(4, 10000);
    UPDATE head_office.entry e SET previous = (SELECT o.digest FROM head_office.entry o WHERE o.journal = e.journal AND o.number = 4)
        WHERE journal = journal_of('NORTH') AND number = 5;
    CALL pg_temp.change(5, NULL);
    RETURN pg_temp.unchained();
END $$;
SELECT is(pg_temp.zeros('2025-07-20 23:59:59+00'), '(NORTH,4)', 'zeros on the 30th day after the entry before are unchained');
SELECT is(pg_temp.zeros('2025-07-21 00:00:00+00'), '', '  and from the 31st day on they are not');
UPDATE head_office.bridge SET retention_days = 31 WHERE bridge = 'NORTH';
SELECT is(pg_temp.zeros('2025-07-21 00:00:00+00'), '(NORTH,4)', '  unless entries are kept for 31 days');
SELECT is(pg_temp.zeros('2025-07-22 00:00:00+00'), '', '  which ends on the 32nd');
SELECT is(pg_temp.unsound(), '', 'and all are sound');
SELECT is((SELECT count(*) FROM head_office.entry e JOIN head_office.journal USING (journal) WHERE bridge = 'NORTH'
    AND encode(e.digest, 'hex') <> digest(number, key, kind, plate, moment AT TIME ZONE 'UTC', gross_kg, preset_kg, interval_kg, max_kg, serial, encode(previous, 'hex'))),
    0::bigint, '  also by the digests of the tests');
SELECT is((SELECT count(*) FROM head_office.entry e JOIN head_office.journal USING (journal) WHERE bridge = 'NORTH'), 5::bigint, 'none was lost');
SELECT * FROM finish();
ROLLBACK;
