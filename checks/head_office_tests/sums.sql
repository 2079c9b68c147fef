-- `sum_difference` shows each sum, open First or year that a superuser changed. `rebuild_sums` computes them from the entries.
BEGIN;
SET LOCAL search_path = test, tap;
SELECT plan(16);
CREATE FUNCTION pg_temp.differences(name text DEFAULT 'NORTH') RETURNS text LANGUAGE sql AS $$
SELECT rows(format('SELECT what, kept IS NULL AS no_kept, computed IS NULL AS no_computed FROM head_office.sum_difference WHERE bridge = %L ORDER BY what', name)) $$;

CALL bridge('NORTH', 3650);
CALL weigh('NORTH', 'first', 'A-1', 10000, at => '2025-01-14 08:00:00');
CALL weigh('NORTH', 'second', 'A-1', 30000, at => '2025-01-14 09:00:00');
CALL weigh('NORTH', 'single', 'B-2', 18000, 5000, at => '2025-01-15 08:00:00');
CALL weigh('NORTH', 'first', 'C-3', 10000, at => '2025-01-15 09:00:00');
CALL loaded('NORTH');
CALL bridge('SOUTH', 3650);
CALL weigh('SOUTH', 'first', 'A-1', 10000, at => '2025-01-14 08:00:00');
CALL loaded('SOUTH');
SELECT is(rows('SELECT * FROM head_office.sum_difference'), '', 'after loads there is no difference');

UPDATE head_office.day_sum SET net_kg = net_kg + 20 WHERE bridge = 'NORTH' AND day = '2025-01-14';
SELECT is(pg_temp.differences(), '(2025-01-14,f,f)', 'a changed net is one');
SELECT is(rows($$SELECT kept ->> 'net_kg', computed ->> 'net_kg' FROM head_office.sum_difference$$), '(20020,20000)', '  with both sums');
SELECT head_office.rebuild_sums('NORTH') \g /dev/null
SELECT is(pg_temp.differences(), '', '  and rebuild_sums removes it');
UPDATE head_office.day_sum SET preset_kg = preset_kg + 20 WHERE bridge = 'NORTH' AND day = '2025-01-15';
SELECT is(pg_temp.differences(), '(2025-01-15,f,f)', 'a changed sum of preset tares is one');
DELETE FROM head_office.day_sum WHERE bridge = 'NORTH' AND day = '2025-01-14';
SELECT is(pg_temp.differences(), '(2025-01-14,t,f) (2025-01-15,f,f)', 'a day that was removed is one');
INSERT INTO head_office.day_sum VALUES ('2025-01-16', 'NORTH', 1, 1, 1, 0, 0, 0);
SELECT is(pg_temp.differences(), '(2025-01-14,t,f) (2025-01-15,f,f) (2025-01-16,f,t)', 'a day that was put in is one');
SELECT head_office.rebuild_sums('NORTH') \g /dev/null
SELECT is(rows($$SELECT day, tickets, net_kg FROM head_office.day_sum WHERE bridge = 'NORTH' ORDER BY day$$), '(2025-01-14,1,20000) (2025-01-15,1,13000)',
    '  and rebuild_sums makes all of them');

UPDATE head_office.open_entry SET gross_kg = gross_kg + 20 WHERE plate = 'C-3';
SELECT is(pg_temp.differences(), '(C-3,f,f)', 'a changed open First is one');
DELETE FROM head_office.open_entry WHERE plate = 'C-3';
SELECT is(pg_temp.differences(), '(C-3,t,f)', 'a removed one is one');
INSERT INTO head_office.open_entry VALUES (journal_of('NORTH'), 'D-4', 1, now(), 10000);
SELECT is(pg_temp.differences(), '(C-3,t,f) (D-4,f,t)', 'one that was put in is one');
SELECT head_office.rebuild_sums('NORTH') \g /dev/null
SELECT is(rows($$SELECT plate, number, gross_kg FROM head_office.on_site WHERE bridge = 'NORTH'$$), '(C-3,4,10000)', '  and rebuild_sums makes them');

UPDATE head_office.journal_year SET entries = entries + 1 WHERE journal = journal_of('NORTH');
SELECT is(pg_temp.differences(), '(2025,f,f)', 'a changed year is one');
DELETE FROM head_office.journal_year WHERE journal = journal_of('NORTH');
SELECT alike(pg_temp.differences(), '(2025,t,f)%', 'a removed year is one');
SELECT head_office.rebuild_sums('NORTH') \g /dev/null
SELECT is(rows('SELECT * FROM head_office.sum_difference'), '', '  and rebuild_sums makes it');
SELECT is(pg_temp.differences('SOUTH'), '', 'no other bridge is named');
SELECT * FROM finish();
ROLLBACK;
