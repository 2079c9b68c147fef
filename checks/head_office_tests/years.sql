-- The table of each entry's year, and the years in which a load looks for a journal's numbers.
BEGIN;
SET LOCAL search_path = test, tap, head_office;
SELECT plan(36);
SET LOCAL timezone = 'Pacific/Auckland';
SELECT extract(year FROM now() AT TIME ZONE 'UTC')::integer AS year \gset

SELECT is(head_office.year_of('2025-12-31 23:59:59', '2027-01-01'), 2025, 'a moment is of its year of UTC');
SELECT is(head_office.year_of('2026-01-01 00:00:00', '2027-01-01'), 2026, '  from its first second on');
SELECT is(head_office.year_of('2000-01-01 00:00:00', '2027-01-01'), 2000, 'the first year is 2000');
SELECT is(head_office.year_of('1999-12-31 23:59:59', '2027-01-01'), 9999, '  and what is before it is of no year');
SELECT is(head_office.year_of('2026-12-31 23:59:59', '2027-01-01'), 2026, 'the last one ends where it is said');
SELECT is(head_office.year_of('2027-01-01 00:00:00', '2027-01-01'), 9999, '  and what is behind it is of no year');
SELECT is(head_office.next_year(), make_timestamp(extract(year FROM now() AT TIME ZONE 'UTC' + interval '5 minutes')::integer + 1, 1, 1, 0, 0, 0),
    'there can be entries until this year ends, by clocks five minutes ahead');
SELECT is(head_office.table_of(2025), 'entry_2025', 'the table of a year');
SELECT is(head_office.table_of(0), 'entry_before', '  of what stands since before there were years');
SELECT is(head_office.table_of(9999), 'entry_misdated', '  and of what is of no year');
SELECT has_table('head_office', 'entry_' || :year, 'the table of this year is there');
SELECT has_table('head_office', 'entry_' || (:year + 1), '  and that of the next one');

-- A table of a year is made by the first load that needs it
SELECT hasnt_table('head_office', 'entry_2011', 'the table of a year long ago isn''t there');
SELECT is(head_office.make_year(2011), true, '  until it is made');
SELECT has_table('head_office', 'entry_2011', '  and then is');
SELECT is(head_office.make_year(2011), true, '  and made once');
SELECT throws_ok('INSERT INTO head_office.entry_2011 SELECT * FROM head_office.entry', 'P0001', 'entry_2011 is never changed', 'nobody writes into it by its own name');
SELECT throws_ok('DELETE FROM head_office.entry_2011', 'P0001', 'entry_2011 is never changed', '  or deletes from it');
SELECT throws_ok('TRUNCATE head_office.entry_2011', 'P0001', 'entry_2011 is never changed', '  or empties it');
SELECT is(has_table_privilege('office', 'head_office.entry_2011', 'SELECT'), true, 'a reader reads it');
SELECT is(has_table_privilege('bridge_north', 'head_office.entry_2011', 'SELECT'), false, '  and a loader doesn''t');

CALL bridge('NORTH', 3650);
CALL weigh('NORTH', 'first', 'A-1', 10000, at => '2012-12-31 23:59:59');        -- 1
CALL weigh('NORTH', 'second', 'A-1', 30000, at => '2013-01-01 00:00:00');       -- 2
CALL weigh('NORTH', 'first', 'B-2', 10000, at => '2013-06-01 00:00:00');        -- 3
CALL weigh('NORTH', 'second', 'B-2', 30000, at => '2014-06-01 00:00:00');       -- 4
CALL loaded('NORTH');
CREATE FUNCTION pg_temp.tables() RETURNS text LANGUAGE sql AS $$
SELECT rows('SELECT tableoid::regclass, number FROM head_office.entry WHERE journal = journal_of(''NORTH'') ORDER BY number') $$;
CREATE FUNCTION pg_temp.years() RETURNS text LANGUAGE sql AS $$
SELECT rows('SELECT year, first, last, entries, begins, since, until FROM head_office.journal_year WHERE journal = journal_of(''NORTH'') ORDER BY year') $$;
SELECT is(pg_temp.tables(), '(entry_2012,1) (entry_2013,2) (entry_2013,3) (entry_2014,4)',
    'a load stores each entry in the table of its year');
SELECT is(pg_temp.years(), '(2012,1,1,1,1,2012,2012) (2013,2,3,2,2,2013,2013) (2014,4,4,1,4,2014,2014)', '  and keeps which numbers are in which year');
SELECT is(rows('SELECT ticket, first FROM head_office.ticket ORDER BY ticket'), '(2,1) (4,3)', 'a Second finds its First in the year before');
SELECT is(rows('SELECT since, until FROM head_office.years_of(journal_of(''NORTH''), 2, 3)'), '(2013,2013)', 'numbers are looked for in their years');
SELECT is(rows('SELECT since, until FROM head_office.years_of(journal_of(''NORTH''), 1, 4)'), '(2012,2014)', '  of which there may be several');
SELECT is(rows('SELECT since, until FROM head_office.years_of(journal_of(''NORTH''), 5, 9)'), '(,)', '  or none');

-- A clock that was wrong: numbers of one year among those of another
CALL weigh('NORTH', 'first', 'C-3', 10000, at => '2013-07-01 00:00:00');        -- 5
CALL weigh('NORTH', 'second', 'C-3', 30000, at => '2014-07-01 00:00:00');       -- 6
CALL weigh('NORTH', 'first', 'D-4', 10000, at => '1990-01-01 00:00:00');        -- 7
CALL weigh('NORTH', 'second', 'D-4', 30000, at => '2014-08-01 00:00:00');       -- 8
SELECT alike(load('NORTH'), 'NORTH: records 8, added 4, findings 2, new 2', 'a clock that was put back twice is found twice');
SELECT is(findings('NORTH'), '{falls 5,falls 7}', '  where it was put back');
SELECT is(pg_temp.years(), '(2012,1,1,1,1,2012,2012) (2013,2,5,3,2,2013,9999) (2014,4,8,3,2,2013,9999) (9999,7,7,1,2,2013,9999)',
    'years whose numbers lie among each other are looked through together');
SELECT is((SELECT tableoid::regclass::text FROM head_office.entry WHERE journal = journal_of('NORTH') AND number = 7), 'entry_misdated', 'what is of no year stands apart');
SELECT is(rows('SELECT ticket, first FROM head_office.ticket WHERE ticket > 4 ORDER BY ticket'), '(6,5) (8,7)', '  and its tickets are found');
SELECT is(rows('SELECT * FROM head_office.sum_difference'), '', '  and the sums are those of the entries');

-- A record that doesn't fit its digest makes no table.
CALL bridge('FALSE', 3650);
CALL weigh('FALSE', 'single', 'A-1', 9000, 5000, at => '2003-01-01 00:00:00');
UPDATE record SET gross_kg = 9020 WHERE book = 'FALSE';
SELECT is(load('FALSE'), 'FALSE: records 1, added 0, findings 1, new 1', 'a false record of another year');
SELECT hasnt_table('head_office', 'entry_2003', '  makes no table');

-- A number may be stored once, whatever its year.
CALL bridge('TWICE', 3650);
CALL weigh('TWICE', 'single', 'A-1', 9000, 5000, at => '2013-01-01 00:00:00');
CALL weigh('TWICE', 'single', 'A-1', 9000, 5000, at => '2014-01-01 00:00:00');
ALTER TABLE record DROP CONSTRAINT record_pkey;
UPDATE record SET number = 1, digest = test.digest(1, key, kind, plate, moment, gross_kg, preset_kg, interval_kg, max_kg, serial, previous) WHERE book = 'TWICE' AND number = 2;
SELECT is(load('TWICE'), 'TWICE: refused: a number stands twice in the export', 'a number that an export has in two years is refused');
SELECT * FROM finish();
ROLLBACK;
