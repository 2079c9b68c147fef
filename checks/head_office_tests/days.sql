-- The sums of a bridge's days, and in whose zone a day begins and ends. A load keeps them in `day_sum`, and `computed_day_total` computes them from the entries.
BEGIN;
SET LOCAL search_path = test, tap;
SELECT plan(27);
SET LOCAL timezone = 'Pacific/Auckland';

-- In January Berlin is an hour before UTC, New York five hours behind it.
CREATE PROCEDURE pg_temp.weigh_the_night(name text) LANGUAGE plpgsql AS $$
BEGIN
    CALL weigh(name, 'first', 'A-1', 10000, at => '2025-01-14 22:30:00');             -- 1
    CALL weigh(name, 'second', 'A-1', 30000, at => '2025-01-14 22:59:59');            -- 2: takes 20000
    CALL weigh(name, 'first', 'B-2', 40000, at => '2025-01-14 22:59:59');             -- 3
    CALL weigh(name, 'second', 'B-2', 15000, at => '2025-01-14 23:00:00');            -- 4: brings 25000
    CALL weigh(name, 'single', 'C-3', 18000, 5000, at => '2025-01-15 04:59:59');      -- 5: 13000
    CALL weigh(name, 'single', 'C-3', 17000, 5000, at => '2025-01-15 05:00:00');      -- 6: 12000
    CALL weigh(name, 'single', 'C-3', 16000, 5000, at => '2025-01-15 23:00:00');      -- 7: 11000
END $$;
CREATE FUNCTION pg_temp.days_of(name text, of_view text DEFAULT 'day_total') RETURNS text LANGUAGE sql AS $$
SELECT rows(format('SELECT day, tickets, gross_kg, net_kg, brought_kg, taken_kg, preset_kg FROM head_office.%I WHERE bridge = %L ORDER BY day', of_view, name)) $$;

CALL bridge('BERLIN', 3650, 'Europe/Berlin');
CALL bridge('NEWYORK', 3650, 'America/New_York');
CALL bridge('UTC', 3650);
CALL pg_temp.weigh_the_night('BERLIN');
CALL pg_temp.weigh_the_night('NEWYORK');
CALL pg_temp.weigh_the_night('UTC');
CALL loaded('BERLIN');
CALL loaded('NEWYORK');
CALL loaded('UTC');
\set berlin '''(2025-01-14,1,30000,20000,0,20000,0) (2025-01-15,3,75000,50000,25000,0,25000) (2025-01-16,1,16000,11000,0,0,11000)'''
\set newyork '''(2025-01-14,3,88000,58000,25000,20000,13000) (2025-01-15,2,33000,23000,0,0,23000)'''
\set utc '''(2025-01-14,2,70000,45000,25000,20000,0) (2025-01-15,3,51000,36000,0,0,36000)'''
SELECT is(pg_temp.days_of('BERLIN'), :berlin, 'in Berlin the day ends at 23:00 of UTC');
SELECT is(pg_temp.days_of('NEWYORK'), :newyork, 'in New York it ends at 5:00 of UTC');
SELECT is(pg_temp.days_of('UTC'), :utc, 'in UTC it ends at midnight');
SELECT is(pg_temp.days_of('BERLIN', 'computed_day_total'), :berlin, 'the entries say the same of Berlin');
SELECT is(pg_temp.days_of('NEWYORK', 'computed_day_total'), :newyork, '  of New York');
SELECT is(pg_temp.days_of('UTC', 'computed_day_total'), :utc, '  and of UTC');

-- Summer time: in Berlin the 30th of March 2025 has 23 hours
CALL bridge('SUMMER', 3650, 'Europe/Berlin');
CALL weigh('SUMMER', 'single', 'C-3', 18000, 5000, at => '2025-03-29 22:59:59');
CALL weigh('SUMMER', 'single', 'C-3', 18000, 5000, at => '2025-03-29 23:00:00');
CALL weigh('SUMMER', 'single', 'C-3', 18000, 5000, at => '2025-03-30 21:59:59');
CALL weigh('SUMMER', 'single', 'C-3', 18000, 5000, at => '2025-03-30 22:00:00');
CALL loaded('SUMMER');
SELECT is(rows($$SELECT day, tickets FROM head_office.day_total WHERE bridge = 'SUMMER' ORDER BY day$$), '(2025-03-29,1) (2025-03-30,2) (2025-03-31,1)',
    'the day on which summer time begins has 23 hours');

-- Another zone makes other sums
UPDATE head_office.bridge SET zone = 'America/New_York' WHERE bridge = 'BERLIN';
SELECT is(pg_temp.days_of('BERLIN'), :newyork, 'once the zone is changed, the days are of the new zone');
UPDATE head_office.bridge SET zone = 'Europe/Berlin' WHERE bridge = 'BERLIN';
SELECT is(pg_temp.days_of('BERLIN'), :berlin, '  and back');
SELECT is(pg_temp.days_of('NEWYORK'), :newyork, '  and the days of the others stay');

-- A second load adds to the day
CALL weigh('BERLIN', 'first', 'A-1', 10000, at => '2025-01-16 09:00:00');             -- 8
CALL loaded('BERLIN');
SELECT is(pg_temp.days_of('BERLIN'), :berlin, 'a First by itself adds nothing');
CALL weigh('BERLIN', 'second', 'A-1', 12000, at => '2025-01-16 10:00:00');            -- 9: takes 2000
CALL weigh('BERLIN', 'second', 'A-1', 13000, at => '2025-01-16 10:00:00');            -- 10: no First
SELECT is(load('BERLIN'), 'BERLIN: records 10, added 2, findings 1, new 1', 'a Second of a First that is stored is loaded');
SELECT is(pg_temp.days_of('BERLIN'), replace(:berlin, '(2025-01-16,1,16000,11000,0,0,11000)', '(2025-01-16,2,28000,13000,0,2000,11000)'),
    '  and adds its ticket, but a Second without a First adds none');
SELECT is(pg_temp.days_of('BERLIN', 'computed_day_total'), pg_temp.days_of('BERLIN'), '  as the entries say');
SELECT is(load('BERLIN'), 'BERLIN: records 10, added 0, findings 0, new 0', 'the same load once more adds nothing');
SELECT is(pg_temp.days_of('BERLIN', 'computed_day_total'), pg_temp.days_of('BERLIN'), '  to the sums either');

-- Entries that come late change the tickets of others
CALL bridge('LATE', 3650);
CALL weigh('LATE', 'first', 'A-1', 10000, at => '2025-01-14 08:00:00');               -- 1
CALL weigh('LATE', 'void', 'A-1', at => '2025-01-14 09:00:00');                       -- 2
CALL weigh('LATE', 'first', 'A-1', 40000, at => '2025-01-14 10:00:00');               -- 3
CALL weigh('LATE', 'second', 'A-1', 12000, at => '2025-01-15 11:00:00');              -- 4
SELECT is(load('LATE', without => '{2,3}'), 'LATE: records 2, added 2, findings 1, new 1', 'a load lacks two entries');
SELECT is(pg_temp.days_of('LATE'), '(2025-01-15,1,12000,2000,0,2000,0)', '  whose Second is paired with what there is');
SELECT is(load('LATE'), 'LATE: records 4, added 2, findings 0, new 0', 'they come late');
SELECT is(pg_temp.days_of('LATE'), '(2025-01-15,1,40000,28000,28000,0,0)', '  and the Second is paired again');
SELECT is(pg_temp.days_of('LATE', 'computed_day_total'), pg_temp.days_of('LATE'), '  as the entries say');

CALL bridge('EVENING', 3650, 'Asia/Tokyo');
CALL weigh('EVENING', 'single', 'A-1', 9000, 5000, at => '2025-01-14 15:00:00');      -- 1: of the 15th in Tokyo
CALL weigh('EVENING', 'single', 'A-1', 9000, 5000, at => '2025-01-14 16:00:00');      -- 2
CALL weigh('EVENING', 'single', 'A-1', 9000, 5000, at => '2025-01-14 17:00:00');      -- 3
SELECT alike(load('EVENING', without => '{2}'), 'EVENING: records 2, added 2,%', 'a load lacks an entry of a late evening');
SELECT alike(load('EVENING'), 'EVENING: records 3, added 1,%', '  which comes late');
SELECT is(rows($$SELECT day, tickets FROM head_office.day_total WHERE bridge = 'EVENING'$$), '(2025-01-15,3)', '  and counts on the day of its zone');

-- A day whose only ticket goes
CALL bridge('GONE', 3650);
CALL weigh('GONE', 'first', 'A-1', 10000, at => '2025-01-14 08:00:00');               -- 1
CALL weigh('GONE', 'void', 'A-1', at => '2025-01-14 09:00:00');                       -- 2
CALL weigh('GONE', 'second', 'A-1', 12000, at => '2025-01-15 11:00:00');              -- 3
SELECT alike(load('GONE', without => '{2}'), 'GONE: records 2, added 2,%', 'a load lacks a Void');
SELECT alike(load('GONE'), 'GONE: records 3, added 1,%', 'it comes late');
SELECT is(pg_temp.days_of('GONE'), '', '  and the day without a ticket has no row');
SELECT * FROM finish();
ROLLBACK;
