-- Vehicles on site: the Firsts of each bridge's newest journal that have neither a Second nor a Void.
BEGIN;
SET LOCAL search_path = test, tap;
SELECT plan(15);
CREATE FUNCTION pg_temp.on_site(name text) RETURNS text LANGUAGE sql AS $$
SELECT rows(format('SELECT plate, number, gross_kg FROM head_office.on_site WHERE bridge = %L ORDER BY number', name)) $$;

CALL bridge('NORTH');
CALL weigh('NORTH', 'first', 'A-1', 10000);     -- 1
CALL weigh('NORTH', 'first', 'B-2', 20000);     -- 2
CALL weigh('NORTH', 'first', 'C-3', 30000);     -- 3
CALL weigh('NORTH', 'second', 'A-1', 30000);    -- 4
CALL weigh('NORTH', 'void', 'B-2');             -- 5
CALL weigh('NORTH', 'single', 'C-3', 9000, 5000);   -- 6
CALL loaded('NORTH');
SELECT is(pg_temp.on_site('NORTH'), '(C-3,3,30000)', 'a vehicle is on site until its Second or Void, and a Single changes nothing');
CALL weigh('NORTH', 'first', 'A-1', 11000, at => (present() AT TIME ZONE 'UTC')::timestamp - interval '30 minutes');     -- 7
CALL loaded('NORTH');
SELECT is(pg_temp.on_site('NORTH'), '(C-3,3,30000) (A-1,7,11000)', 'a vehicle may come again');
SELECT is((SELECT since FROM head_office.on_site WHERE plate = 'A-1'), present() - interval '30 minutes', '  since the moment of its First');
CALL weigh('NORTH', 'second', 'C-3', 12000, age => '20 minutes');     -- 8
CALL loaded('NORTH');
SELECT is(pg_temp.on_site('NORTH'), '(A-1,7,11000)', 'and leaves by its Second');
CALL weigh('NORTH', 'first', 'A-1', 11500, age => '10 minutes');      -- 9
SELECT is(load('NORTH'), 'NORTH: records 9, added 1, findings 1, new 1', 'a First of a plate that has one open');
SELECT is(findings('NORTH'), '{open twice 9}', '  is a finding');
SELECT is(pg_temp.on_site('NORTH'), '(A-1,9,11500)', '  and the newer one is on site');
SELECT is(rows('SELECT plate, number FROM head_office.computed_open_entry'), '(A-1,9)', '  as the entries say');

CALL weigh('NORTH', 'single', 'A-1', 11600, 5000, age => '5 minutes');     -- 10
CALL loaded('NORTH', newest => true, first => 10);
SELECT is(pg_temp.on_site('NORTH'), '(A-1,9,11500)', 'a Single of a later load changes nothing');

-- another bridge, and another file of it
CALL bridge('SOUTH');
CALL weigh('SOUTH', 'first', 'A-1', 10000);
CALL loaded('SOUTH');
SELECT is(pg_temp.on_site('SOUTH'), '(A-1,1,10000)', 'the same plate may be on site at two bridges');
SELECT is(pg_temp.on_site('NORTH'), '(A-1,9,11500)', '  and each shows its own');
CALL new_file('SOUTH');
SELECT is(pg_temp.on_site('SOUTH'), '', 'with a new file, what is open in the former one is on site no more');
SELECT is((SELECT count(*) FROM head_office.open_entry WHERE journal <> journal_of('NORTH')), 1::bigint, '  and is kept');

-- an entry that comes late closes what was open
CALL bridge('LATE');
CALL weigh('LATE', 'first', 'A-1', 10000);
CALL weigh('LATE', 'second', 'A-1', 12000);
CALL weigh('LATE', 'single', 'B-2', 12000, 5000);
SELECT alike(load('LATE', without => '{2}'), '%, findings 1, new 1', 'a Second is missing');
CALL loaded('LATE');
SELECT is(pg_temp.on_site('LATE'), '', '  comes late, and the vehicle has left');
SELECT * FROM finish();
ROLLBACK;
