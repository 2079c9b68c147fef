-- Moments that don't fit the clock of the head office, or those of the entries and loads before.
BEGIN;
SET LOCAL search_path = test, tap;
SELECT plan(47);
SET LOCAL timezone = 'America/New_York';

-- A record whose moment is ahead of the moment at which its export was fetched
CREATE FUNCTION pg_temp.ahead(name text, how_much interval, fetched timestamptz DEFAULT present()) RETURNS text[] LANGUAGE plpgsql AS $$
BEGIN
    CALL bridge(name);
    CALL weigh(name, 'single', 'A-1', 9000, 5000, age => - how_much);
    PERFORM load(name, fetched => fetched);
    RETURN findings(name);
END $$;
SELECT is(pg_temp.ahead('A1', '0 s'), '{}', 'a weighing of the present second is no finding');
SELECT is(pg_temp.ahead('A2', '5 minutes'), '{}', 'nor is one five minutes ahead');
SELECT is(pg_temp.ahead('A3', '5 minutes 1 second'), '{ahead 1}', 'one more second is');
SELECT is(pg_temp.ahead('A4', '40 minutes'), '{ahead 1}', 'and so are 40 minutes');
SELECT is(pg_temp.ahead('A5', '1 day'), '{ahead 1}', '  and a day');
SELECT is(pg_temp.ahead('A6', '5 minutes 1 second', NULL), '{ahead 1}', '  also if nobody says when the export was fetched');
SELECT is(pg_temp.ahead('A7', '-1 hour', present() - interval '1 hour'), '{}', 'an export of an hour ago may have a weighing of an hour ago');
SELECT is(pg_temp.ahead('A8', '-54 minutes -59 seconds', present() - interval '1 hour'), '{ahead 1}', '  and not one of later');
SELECT is(pg_temp.ahead('A9', '5 minutes', present() + interval '5 minutes'), '{}', 'the clock of the bridge may be five minutes ahead');
SELECT is(pg_temp.ahead('A10', '5 minutes 1 second', present() + interval '5 minutes'), '{ahead 1}', '  and not more');
SELECT is((SELECT count(*) FROM head_office.entry WHERE journal = journal_of('A4')), 1::bigint, 'such an entry is stored');

-- Entries in a row are one finding
CALL bridge('ROW');
CALL weigh('ROW', 'single', 'A-1', 9000, 5000);
CALL weigh('ROW', 'single', 'A-1', 9000, 5000, age => '-1 hour');
CALL weigh('ROW', 'single', 'A-1', 9000, 5000, age => '-2 hours');
CALL weigh('ROW', 'single', 'A-1', 9000, 5000, age => '-3 hours');
SELECT is(load('ROW'), 'ROW: records 4, added 4, findings 1, new 1', 'three entries ahead in a row');
SELECT is(findings('ROW'), '{ahead 2-4}', '  are one finding');

-- An export that was fetched in the future is refused
CREATE FUNCTION pg_temp.fetched(name text, ahead interval) RETURNS text LANGUAGE plpgsql AS $$
BEGIN
    CALL bridge(name);
    CALL weigh(name, 'single', 'A-1', 9000, 5000);
    RETURN load(name, fetched => now() + ahead);
END $$;
SELECT is(pg_temp.fetched('F1', '5 minutes'), 'F1: records 1, added 1, findings 0, new 0', 'a moment of fetching five minutes ahead is taken');
SELECT alike(pg_temp.fetched('F2', '5 minutes 1 microsecond'), 'F2: refused: fetched at %, and here it is %: set the clocks', 'a microsecond more is refused');
SELECT alike(pg_temp.fetched('F3', '40 minutes'), 'F3: refused: fetched at %', 'and so are 40 minutes');
SELECT is((SELECT reason FROM head_office.refusal WHERE bridge = 'F3'), 'clock', '  because of the clock');
SELECT is((SELECT count(*) FROM head_office.entry WHERE journal = journal_of('F3')), 0::bigint, '  and nothing is stored');

-- Each moment is at least the one before
CREATE FUNCTION pg_temp.falls(name text, later interval) RETURNS text[] LANGUAGE plpgsql AS $$
BEGIN
    CALL bridge(name);
    CALL weigh(name, 'single', 'A-1', 9000, 5000, age => '2 hours');
    CALL weigh(name, 'single', 'A-1', 9000, 5000, age => interval '2 hours' - later);
    PERFORM load(name);
    RETURN findings(name);
END $$;
SELECT is(pg_temp.falls('M1', '0 s'), '{}', 'two entries may have one moment');
SELECT is(pg_temp.falls('M2', '-1 s'), '{falls 2}', 'a moment a second before that of the entry before is a finding');
SELECT is(pg_temp.falls('M3', '1 s'), '{}', 'a second behind it is none');
CALL bridge('M4');
CALL weigh('M4', 'single', 'A-1', 9000, 5000, age => '2 hours');
CALL loaded('M4');
CALL weigh('M4', 'single', 'A-1', 9000, 5000, age => '2 hours 1 second');
SELECT is(load('M4', newest => true, first => 2), 'M4: records 1, added 1, findings 1, new 1', 'a moment before that of the newest stored entry');
SELECT is(findings('M4'), '{falls 2}', '  is one, too');

-- An entry that is dated before an export that lacked it was fetched
CREATE FUNCTION pg_temp.dated_back(name text, before interval, fetched timestamptz DEFAULT present()) RETURNS text[] LANGUAGE plpgsql AS $$
BEGIN
    CALL bridge(name);
    CALL weigh(name, 'single', 'A-1', 9000, 5000, age => '2 days');
    CALL loaded(name, fetched => present() - interval '1 hour');
    CALL weigh(name, 'single', 'A-1', 9000, 5000, age => interval '1 hour' + before);
    PERFORM load(name, fetched => fetched);
    RETURN findings(name);
END $$;
SELECT is(pg_temp.dated_back('D1', '0 s'), '{}', 'an entry of the second of the former load is no finding');
SELECT is(pg_temp.dated_back('D2', '1 minute'), '{}', 'nor is one a minute before it');
SELECT is(pg_temp.dated_back('D3', '1 minute 1 second'), '{dated back 2}', 'one more second is');
SELECT is(pg_temp.dated_back('D4', '3 hours'), '{dated back 2}', 'and so are three hours');
SELECT is(pg_temp.dated_back('D5', '3 hours', NULL), '{dated back 2}', '  also if nobody says when the newer export was fetched');
-- A bridge's clock that was put back since the last load
CREATE FUNCTION pg_temp.put_back(name text, apart_before text, apart_now text, before interval) RETURNS text[] LANGUAGE plpgsql AS $$
BEGIN
    CALL bridge(name);
    CALL weigh(name, 'single', 'A-1', 9000, 5000, age => '5 days');
    PERFORM set_config('head_office.apart', apart_before, true);
    CALL loaded(name, fetched => present() - interval '1 hour');
    CALL weigh(name, 'single', 'A-1', 9000, 5000, age => interval '1 hour' + before);
    PERFORM set_config('head_office.apart', apart_now, true);
    PERFORM load(name);
    PERFORM set_config('head_office.apart', '', true);
    RETURN findings(name);
END $$;
SELECT is(pg_temp.put_back('P1', '100 s', '0 s', '2 minutes 40 seconds'), '{}', 'by 100 seconds: an entry may be dated earlier by as much');
SELECT is(pg_temp.put_back('P2', '100 s', '0 s', '2 minutes 41 seconds'), '{dated back 2}', '  and by no second more');
SELECT is(pg_temp.put_back('P3', '0 s', '100 s', '1 minute 1 second'), '{dated back 2}', '  but not if it was put forward');
SELECT is(pg_temp.put_back('P4', '', '-100 s', '1 minute 1 second'), '{dated back 2}', '  nor if one of them isn''t known');
SELECT is(pg_temp.put_back('P5', '0 s', '-3 days', '2 days'), '{clock}', 'a clock that is slow by days allows as much, and is a finding');
SELECT is(pg_temp.put_back('P6', '0 s', '120 s', '0 s'), '{}', 'a clock that is two minutes fast is none');
SELECT is(pg_temp.put_back('P7', '0 s', '121 s', '0 s'), '{clock}', '  one more second is');
SELECT is(pg_temp.put_back('P8', '0 s', '-121 s', '0 s'), '{clock}', '  and so is a slow one');
SELECT is((SELECT apart FROM head_office.heard WHERE bridge = 'P8'), interval '-121 s', '  which is shown');
SELECT is((SELECT string_agg(head_office.roughly(it::interval), ', ') FROM unnest('{121 s,-7199 s,2 hours,47 hours,-3 days}'::text[]) it), '2 minutes, 119 minutes, 2 hours, 47 hours, 3 days',
    'the finding says it roughly, so that a slow drift is one finding');

CALL bridge('D6');
CALL weigh('D6', 'single', 'A-1', 9000, 5000, age => '2 days');
CALL weigh('D6', 'single', 'B-2', 9000, 5000, age => '1 day');
CALL weigh('D6', 'single', 'A-1', 9000, 5000, age => '2 hours');
SELECT alike(load('D6', without => '{2}', fetched => present() - interval '1 hour'), '%, findings 1, new 1', 'an entry that was missing');
SELECT is(load('D6'), 'D6: records 3, added 1, findings 0, new 0', '  isn''t dated back when it comes');

-- An export that is older than one that was loaded
CALL bridge('OLDER');
CALL weigh('OLDER', 'single', 'A-1', 9000, 5000, age => '2 days');
CALL loaded('OLDER', fetched => present() - interval '1 hour');
SELECT alike(load('OLDER', fetched => present() - interval '1 hour 1 second'), 'OLDER: refused: this export was fetched at %, and one of % was loaded before',
    'an export that was fetched a second before the last one is refused');
SELECT is((SELECT reason FROM head_office.refusal WHERE bridge = 'OLDER'), 'older', '  because it is older');
SELECT is(load('OLDER', fetched => present() - interval '1 hour'), 'OLDER: records 1, added 0, findings 0, new 0', 'one of the same moment is taken');
SELECT is(load('OLDER', fetched => present() - interval '30 minutes'), 'OLDER: records 1, added 0, findings 0, new 0', 'and a newer one');
SELECT is((SELECT fetched_at FROM head_office.standing WHERE journal = journal_of('OLDER')), present() - interval '30 minutes', '  whose moment is kept');
SELECT is(load('OLDER'), 'OLDER: records 1, added 0, findings 0, new 0', 'a load without a moment is taken');
SELECT is((SELECT fetched_at FROM head_office.standing WHERE journal = journal_of('OLDER')), present() - interval '30 minutes', '  and takes that moment from nobody');
SELECT * FROM finish();
ROLLBACK;
