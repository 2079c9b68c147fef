-- Years whose plates are dropped: what is refused, what goes, what stays, and how a change of it shows.
BEGIN;
SET LOCAL search_path = test, tap;
SELECT plan(65);
SELECT extract(year FROM now() AT TIME ZONE 'UTC')::integer - 3 AS year \gset

-- Six entries of three years ago, one of which is a First whose Second is of the next year, and three of the present year.
CREATE PROCEDURE pg_temp.begin_bridge(name text, plate_years integer DEFAULT 2, its_zone text DEFAULT 'UTC') LANGUAGE plpgsql AS $$
DECLARE
    year integer := extract(year FROM now() AT TIME ZONE 'UTC')::integer - 3;
BEGIN
    CALL bridge(name, 30, its_zone);
    UPDATE head_office.bridge b SET plate_years = begin_bridge.plate_years WHERE bridge = name;
    CALL weigh(name, 'first', 'A-1', 10000, at => make_timestamp(year, 5, 1, 8, 0, 0));             -- 1
    CALL weigh(name, 'second', 'A-1', 30000, at => make_timestamp(year, 5, 1, 9, 0, 0));            -- 2: takes 20000
    CALL weigh(name, 'single', 'B-2', 18000, 5000, at => make_timestamp(year, 5, 2, 8, 0, 0));      -- 3: 13000
    CALL weigh(name, 'first', 'C-3', 10000, at => make_timestamp(year, 5, 3, 8, 0, 0));             -- 4
    CALL weigh(name, 'void', 'C-3', at => make_timestamp(year, 5, 3, 9, 0, 0));                     -- 5
    CALL weigh(name, 'first', 'D-4', 10000, at => make_timestamp(year, 12, 31, 20, 0, 0));          -- 6
    CALL weigh(name, 'second', 'D-4', 14000, at => make_timestamp(year + 1, 1, 1, 8, 0, 0));        -- 7: takes 4000
    CALL weigh(name, 'single', 'E-5', 9000, 5000, age => '1 hour');                                 -- 8: 4000
    CALL loaded(name);
END $$;
-- The lines of `seal`, or the error
CREATE FUNCTION pg_temp.sealed(name text, its integer) RETURNS text LANGUAGE plpgsql AS $$
BEGIN
    RETURN (SELECT string_agg(s, ' ') FROM head_office.seal(name, its) s);
EXCEPTION WHEN OTHERS THEN
    RETURN sqlerrm;
END $$;

CALL bridge('NONE');
SELECT is(pg_temp.sealed('NONE', :year), 'refused: nobody registered how long plates of NONE are kept: UPDATE head_office.bridge SET plate_years = ..',
    'no plate is dropped unless somebody registered for how long they are kept');
SELECT alike(pg_temp.sealed('NOWHERE', :year), 'refused: nobody registered%', '  nor of an unknown bridge');
CALL pg_temp.begin_bridge('KEPT', 3);
SELECT is(pg_temp.sealed('KEPT', :year), format('refused: %s isn''t over for 3 whole years', :year), 'no plate is dropped a year early');
SELECT is(pg_temp.sealed('KEPT', :year + 3), format('refused: %s isn''t over for 3 whole years', :year + 3), '  nor of the present year');
CALL bridge('LONG', 3650);
UPDATE head_office.bridge SET plate_years = 1 WHERE bridge = 'LONG';
SELECT is(pg_temp.sealed('LONG', :year), format('refused: the bridge itself keeps entries of %s yet', :year), 'no plate is dropped that the bridge must keep');

CALL pg_temp.begin_bridge('FOUND');
INSERT INTO head_office.finding (journal, what, first, last, record) VALUES (journal_of('FOUND'), 'unseen', 6, 7, 'of the last entry of the year');
SELECT is(pg_temp.sealed('FOUND', :year), 'refused: findings of FOUND up to number 6 aren''t acknowledged', 'no plate is dropped while a finding of the year is open');
SELECT is((SELECT count(*) FROM head_office.entry WHERE journal = journal_of('FOUND')), 8::bigint, '  and each entry is there');
INSERT INTO head_office.acknowledgement (finding, note) SELECT finding, 'looked at' FROM head_office.finding WHERE journal = journal_of('FOUND');
SELECT alike(pg_temp.sealed('FOUND', :year), 'FOUND: journal %, 1 to 6, 6 entries, %', '  and once it is acknowledged it is');
CALL pg_temp.begin_bridge('BEHIND');
INSERT INTO head_office.finding (journal, what, first, last, record) VALUES (journal_of('BEHIND'), 'unseen', 7, 7, 'of the next year');
SELECT alike(pg_temp.sealed('BEHIND', :year), 'BEHIND: journal %, 1 to 6, 6 entries, %', 'a finding of the next year is in nobody''s way');

-- Some fields go, and others stay.
CALL pg_temp.begin_bridge('NORTH');
CREATE FUNCTION pg_temp.days_of(name text) RETURNS text LANGUAGE sql AS $$
SELECT rows(format('SELECT day, tickets, gross_kg, net_kg, brought_kg, taken_kg, preset_kg FROM head_office.computed_day_total WHERE bridge = %L ORDER BY day', name)) $$;
CREATE TEMPORARY TABLE before AS SELECT pg_temp.days_of('NORTH') AS days, rows('SELECT * FROM head_office.day_total WHERE bridge = ''NORTH'' ORDER BY day') AS kept,
    rows('SELECT ticket, kind, at, gross_kg, tare_kg, net_kg, brought FROM head_office.ticket_of_journal WHERE bridge = ''NORTH'' AND ticket <= 6 ORDER BY ticket') AS tickets,
    (SELECT sha256(string_agg(decode(digest, 'hex'), ''::bytea ORDER BY number)) FROM record WHERE book = 'NORTH' AND number <= 6) AS digest;
INSERT INTO head_office.finding (journal, what, first, last, record) VALUES (journal_of('NORTH'), 'unsound', 3, 3, '3,K3,single,B-2, with its plate');
INSERT INTO head_office.acknowledgement (finding, note) SELECT finding, 'looked at' FROM head_office.finding WHERE journal = journal_of('NORTH');
SELECT is(rows('SELECT bridge, year FROM head_office.due_year WHERE bridge IN (''NORTH'', ''KEPT'', ''NONE'')'), format('(NORTH,%s)', :year), 'the view names the year that is due');
SELECT is(pg_temp.sealed('NORTH', :year), format('NORTH: journal %s, 1 to 6, 6 entries, %s', journal_of('NORTH'), encode((SELECT digest FROM before), 'hex')),
    'a year''s plates are dropped, and one digest stands over those of all its entries');
SELECT is(rows($$SELECT number, plate FROM head_office.entry WHERE journal = journal_of('NORTH') ORDER BY number$$), '(6,D-4) (7,D-4) (8,E-5)',
    'its entries are gone, but a First whose Second comes later stays with it');
SELECT is(rows($$SELECT number, kind, gross_kg, preset_kg, partner FROM head_office.sealed_entry WHERE journal = journal_of('NORTH') ORDER BY number$$),
    '(1,first,10000,,) (2,second,30000,,1) (3,single,18000,5000,) (4,first,10000,,) (5,void,,,)', 'the weights are kept, with the partner of each Second');
SELECT is((SELECT array_agg(attname ORDER BY attname) FROM pg_attribute WHERE attrelid = 'head_office.sealed_entry'::regclass AND attnum > 0 AND attname ~ 'plate|key|digest|previous'),
    NULL, '  and no plate, key or digest');
SELECT is(pg_temp.days_of('NORTH'), (SELECT days FROM before), 'the totals stay as the entries said');
SELECT is(rows('SELECT * FROM head_office.day_total WHERE bridge = ''NORTH'' ORDER BY day'), (SELECT kept FROM before), '  and as they were kept');
SELECT is(rows('SELECT ticket, kind, at, gross_kg, tare_kg, net_kg, brought FROM head_office.sealed_ticket WHERE bridge = ''NORTH'' ORDER BY ticket'),
    (SELECT tickets FROM before), '  and each ticket''s weights');
SELECT is(rows('SELECT ticket, first, net_kg FROM head_office.ticket WHERE bridge = ''NORTH'' ORDER BY ticket'), '(7,6,4000) (8,,4000)', 'the ticket of the next year is a pair still');
SELECT is(rows('SELECT * FROM head_office.sum_difference'), '', 'no sum differs from the entries');
SELECT is((SELECT record FROM head_office.finding WHERE journal = journal_of('NORTH')), format('sealed with %s, %s', :year, (SELECT finding FROM head_office.finding WHERE journal = journal_of('NORTH'))),
    'the record of an acknowledged finding goes, too');
SELECT is((SELECT sealed FROM head_office.standing WHERE journal = journal_of('NORTH')), 6::bigint, 'the last number that went is kept');
SELECT is(pg_temp.sealed('NORTH', :year), NULL, 'a second time there is nothing to drop');
SELECT is((SELECT digest FROM head_office.sealed_year WHERE journal = journal_of('NORTH')), (SELECT digest FROM before), 'the digest of the year is kept');
SELECT is((SELECT by FROM head_office.sealed_year WHERE journal = journal_of('NORTH')), 'keeper', '  and who did it');

-- Loads afterwards
SELECT is(load('NORTH'), 'NORTH: records 2, added 0, findings 0, new 0', 'an export that has the entries still is taken');
SELECT is((SELECT count(*) FROM head_office.entry WHERE journal = journal_of('NORTH')), 3::bigint, '  and none of them is stored again');
SELECT is(load('NORTH', first => 8), 'NORTH: records 1, added 0, findings 0, new 0', 'an export that hasn''t is taken as well');
CALL weigh('NORTH', 'single', 'E-5', 9000, 5000, age => '1 minute');
SELECT is(load('NORTH'), 'NORTH: records 3, added 1, findings 0, new 0', 'what is weighed next is added');
SELECT is(rows('SELECT * FROM head_office.sum_difference'), '', '  and the sums are those of the entries');

-- A change of a kept entry shows.
SELECT is(rows('SELECT * FROM head_office.unsound_year'), '', 'what is kept of the year is sound');
SELECT throws_ok('UPDATE head_office.sealed_entry SET gross_kg = 1', 'P0001', 'sealed_entry is never changed', 'what is kept is never changed');
SELECT throws_ok('DELETE FROM head_office.sealed_year', 'P0001', 'sealed_year is never changed', '  nor its digest');
ALTER TABLE head_office.sealed_entry DISABLE TRIGGER never_changed;
CREATE FUNCTION pg_temp.of_one(field text, wanted text, its integer) RETURNS SETOF text LANGUAGE plpgsql AS $$
DECLARE
    was text;
BEGIN
    EXECUTE format('SELECT (%I)::text FROM head_office.sealed_entry WHERE journal = journal_of(''NORTH'') AND number = %s', field, its) INTO was;
    EXECUTE format('UPDATE head_office.sealed_entry SET %I = %s WHERE journal = journal_of(''NORTH'') AND number = %s', field, wanted, its);
    RETURN NEXT is(rows('SELECT bridge, year FROM head_office.unsound_year'), format('(NORTH,%s)', extract(year FROM now() AT TIME ZONE 'UTC')::integer - 3), 'another ' || field || ' shows');
    EXECUTE format('UPDATE head_office.sealed_entry SET %I = %L WHERE journal = journal_of(''NORTH'') AND number = %s', field, was, its);
END $$;
SELECT pg_temp.of_one('kind', '''second''', 1);
SELECT pg_temp.of_one('moment', 'moment + interval ''1 second''', 2);
SELECT pg_temp.of_one('gross_kg', 'gross_kg + 20', 2);
SELECT pg_temp.of_one('preset_kg', 'preset_kg - 20', 3);
SELECT pg_temp.of_one('interval_kg', '10', 3);
SELECT pg_temp.of_one('max_kg', '50000', 3);
SELECT pg_temp.of_one('serial', '''OTHER''', 3);
SELECT pg_temp.of_one('partner', '4', 2);
DELETE FROM head_office.sealed_entry WHERE journal = journal_of('NORTH') AND number = 5;
SELECT is(rows('SELECT bridge, year FROM head_office.unsound_year'), format('(NORTH,%s)', :year), 'a removed entry shows');

-- The year ends in the zone of the bridge: the last one of the year is of the next one in Tokyo
CALL pg_temp.begin_bridge('TOKYO', 2, 'Asia/Tokyo');
SELECT alike(pg_temp.sealed('TOKYO', :year), 'TOKYO: journal %, 1 to 5, 5 entries, %', 'a year ends at midnight of the bridge');

-- The next year takes the First with it, whose Second is of that year.
UPDATE head_office.bridge SET plate_years = 1 WHERE bridge = 'NORTH';
SELECT alike(pg_temp.sealed('NORTH', :year + 1), 'NORTH: journal %, 7 to 7, 1 entries, %', 'the next year is dropped');
SELECT is(rows($$SELECT number, plate FROM head_office.entry WHERE journal = journal_of('NORTH') ORDER BY number$$), '(8,E-5) (9,E-5)', '  with the First that waited for it');
SELECT is(rows($$SELECT ticket, first, tare_kg, net_kg FROM head_office.sealed_ticket WHERE bridge = 'NORTH' AND ticket > 6$$), '(7,6,10000,4000)', '  and its ticket is a pair still');
SELECT is(rows($$SELECT * FROM head_office.sum_difference WHERE bridge = 'NORTH'$$), '', '  and the sums are those of the entries');

-- The first second of a year is of that year.
CALL bridge('EXACT');
UPDATE head_office.bridge SET plate_years = 2 WHERE bridge = 'EXACT';
CALL weigh('EXACT', 'single', 'A-1', 9000, 5000, at => make_timestamp(:year, 12, 31, 23, 59, 59));
CALL weigh('EXACT', 'single', 'A-1', 9000, 5000, at => make_timestamp(:year + 1, 1, 1, 0, 0, 0));
CALL loaded('EXACT');
SELECT alike(pg_temp.sealed('EXACT', :year), 'EXACT: journal %, 1 to 1, 1 entries, %', 'a year ends with its last second');

-- A follower: each ticket counts once before, between and afterwards.
CALL bridge('FORMER');
UPDATE head_office.bridge SET plate_years = 2 WHERE bridge = 'FORMER';
CALL weigh('FORMER', 'single', 'A-1', 9000, 5000, at => make_timestamp(:year, 5, 1, 8, 0, 0), version => 1);
CALL weigh('FORMER', 'single', 'A-1', 9000, 5000, at => make_timestamp(:year, 5, 2, 8, 0, 0), version => 1);
CALL loaded('FORMER');
CALL copy_book('FORMER', 'FORMER-2');
CALL weigh('FORMER-2', 'single', 'A-1', 9000, 5000, at => make_timestamp(:year, 5, 3, 8, 0, 0), serial => 'FORMER1');
CALL new_file('FORMER', follows => true);
CALL loaded('FORMER-2', 'FORMER');
SELECT is((SELECT count(*) FROM head_office.ticket WHERE bridge = 'FORMER'), 3::bigint, 'a follower and its former journal have three tickets');
SELECT matches(pg_temp.sealed('FORMER', :year), '^FORMER: journal \d+, 1 to 2, 2 entries, [0-9a-f]{64} FORMER: journal \d+, 1 to 3, 3 entries, [0-9a-f]{64}$', '  both are sealed');
SELECT is((SELECT sum(tickets) FROM head_office.computed_day_total WHERE bridge = 'FORMER'), 3::numeric, '  and three tickets count afterwards');
SELECT is(rows($$SELECT * FROM head_office.sum_difference WHERE bridge = 'FORMER'$$), '', '  as the sums say');

-- A First that is open for years has no place on site any more.
CALL bridge('LEFT');
UPDATE head_office.bridge SET plate_years = 2 WHERE bridge = 'LEFT';
CALL weigh('LEFT', 'first', 'A-1', 10000, at => make_timestamp(:year, 5, 1, 8, 0, 0));
CALL weigh('LEFT', 'first', 'B-2', 10000, age => '1 hour');
CALL loaded('LEFT');
SELECT alike(pg_temp.sealed('LEFT', :year), 'LEFT: journal %, 1 to 1, 1 entries, %', 'a First without a Second is dropped');
SELECT is(rows($$SELECT plate FROM head_office.on_site WHERE bridge = 'LEFT'$$), '(B-2)', '  and on site no more');
SELECT is(rows('SELECT * FROM head_office.sum_difference'), '', '  as the entries say');

-- The oldest year is due, once it is over for as many whole years as plates are kept
CALL bridge('DUE');
UPDATE head_office.bridge SET plate_years = 2 WHERE bridge = 'DUE';
CALL weigh('DUE', 'single', 'A-1', 9000, 5000, at => make_timestamp(:year - 1, 7, 1, 8, 0, 0));
CALL weigh('DUE', 'single', 'A-1', 9000, 5000, at => make_timestamp(:year, 7, 1, 8, 0, 0));
CALL weigh('DUE', 'single', 'A-1', 9000, 5000, at => make_timestamp(:year + 1, 7, 1, 8, 0, 0));
CALL loaded('DUE');
CREATE FUNCTION pg_temp.due() RETURNS text LANGUAGE sql AS $$ SELECT rows('SELECT year FROM head_office.due_year WHERE bridge = ''DUE''') $$;
SELECT is(pg_temp.due(), format('(%s)', :year - 1), 'the oldest year is due');
SELECT alike(pg_temp.sealed('DUE', :year - 1), 'DUE: journal %, 1 to 1, 1 entries, %', '  and dropped');
SELECT is(pg_temp.due(), format('(%s)', :year), '  then the next one is due');
SELECT alike(pg_temp.sealed('DUE', :year), 'DUE: journal %, 2 to 2, 1 entries, %', '  and dropped');
SELECT is(pg_temp.due(), '', '  and then none, because the next one isn''t over for two whole years');

-- A First stays if its Second comes later. Its year is over all the same.
CALL bridge('WAITS');
UPDATE head_office.bridge SET plate_years = 2 WHERE bridge = 'WAITS';
CALL weigh('WAITS', 'first', 'A-1', 9000, at => make_timestamp(:year, 12, 30, 8, 0, 0));
CALL weigh('WAITS', 'single', 'B-2', 9000, 5000, at => make_timestamp(:year, 12, 31, 8, 0, 0));
CALL weigh('WAITS', 'second', 'A-1', 15000, at => make_timestamp(:year + 1, 1, 2, 8, 0, 0));
CALL loaded('WAITS');
SELECT is(rows('SELECT year FROM head_office.due_year WHERE bridge = ''WAITS'''), format('(%s)', :year), 'a year with a First whose Second comes later is due');
SELECT alike(pg_temp.sealed('WAITS', :year), 'WAITS: journal %', '  and dropped');
SELECT is(rows('SELECT year FROM head_office.due_year WHERE bridge = ''WAITS'''), '', '  and then due no more');

-- Nothing that seal turned off stays off
SELECT throws_ok('DELETE FROM head_office.entry', 'P0001', 'entry is never changed', 'after all of this no entry is ever changed');
SELECT throws_ok('UPDATE head_office.finding SET record = ''''', 'P0001', 'finding is never changed', '  and no finding');
SELECT throws_ok('DELETE FROM head_office.load', 'P0001', 'load is never changed', '  and no load');
SELECT * FROM finish();
ROLLBACK;
