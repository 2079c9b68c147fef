-- Instruments, plates and names that change from a moment on, bridges that are retired, and exports that come late.
BEGIN;
SET LOCAL search_path = test, tap;
SELECT plan(80);
CREATE FUNCTION pg_temp.at(age interval) RETURNS timestamptz LANGUAGE sql AS $$ SELECT present() - age $$;

-- An instrument moves from EAST to NORTH: two hours ago.
CALL bridge('EAST');
CALL bridge('NORTH');
CALL weigh('EAST', 'single', 'A-1', 9000, 5000, age => '5 hours');
CALL weigh('EAST', 'single', 'A-1', 9000, 5000, age => '3 hours');
CALL loaded('EAST');
SELECT is(value_as('ada', format('UPDATE head_office.instrument SET until = %L WHERE serial = ''EAST1'' RETURNING bridge', pg_temp.at('4 hours'))),
    format('23514: EAST has entries of EAST1 up to %s', to_char(pg_temp.at('3 hours') AT TIME ZONE 'UTC', 'YYYY-MM-DD HH24:MI:SS "UTC"')), 'an instrument isn''t taken from a bridge for a time of which entries are stored');
SELECT is(as_login('ada', format('UPDATE head_office.instrument SET until = %L WHERE serial = ''EAST1''', pg_temp.at('2 hours'))), 'done', '  but from then on');
SELECT is(value_as('ada', format('INSERT INTO head_office.instrument VALUES (''EAST1'', ''NORTH'', %L) RETURNING bridge', pg_temp.at('2 hours 1 second'))),
    format('23505: serial EAST1 is registered for EAST from -infinity to %s', pg_temp.at('2 hours')), 'two bridges don''t have it at a time');
SELECT is(as_login('ada', format('INSERT INTO head_office.instrument VALUES (''EAST1'', ''NORTH'', %L)', pg_temp.at('2 hours'))), 'done', '  but one after the other');
SELECT is(as_login('ada', format('INSERT INTO head_office.instrument VALUES (''EAST1'', ''EAST'', ''2020-01-01'', %L)', pg_temp.at('2 hours'))), '23505', 'nobody registers it over that time');
SELECT is(as_login('ada', 'UPDATE head_office.instrument SET until = since WHERE bridge = ''NORTH'''), '23514', 'it ends after its begin');
SELECT is(as_login('ada', 'UPDATE head_office.instrument SET bridge = ''NORTH'' WHERE serial = ''EAST1'''), '42501', 'whose it was before stays');
SELECT is(as_login('ada', 'UPDATE head_office.instrument SET since = ''2020-01-01'' WHERE serial = ''EAST1'''), '42501', '  and since when');
CALL weigh('EAST', 'single', 'A-1', 9000, 5000, age => '2 hours 1 second');
CALL loaded('EAST');
SELECT is((SELECT count(*) FROM head_office.entry JOIN head_office.journal USING (journal) WHERE bridge = 'EAST'), 3::bigint, 'EAST''s entries until then are EAST''s, without a new file');
CALL weigh('EAST', 'single', 'A-1', 9000, 5000, age => '2 hours');
SELECT is(load('EAST'), format('EAST: refused: serial EAST1 is registered for NORTH at %s', pg_temp.at('2 hours') AT TIME ZONE 'UTC'), '  and none from then on');
CALL weigh('NORTH', 'single', 'A-1', 9000, 5000, age => '1 hour', serial => 'EAST1');
SELECT is(load('NORTH'), 'NORTH: records 1, added 1, findings 0, new 0', 'NORTH weighs with it');
CALL bridge('LATER');
CALL weigh('LATER', 'single', 'A-1', 9000, 5000, age => '3 hours', serial => 'EAST1');
SELECT is(load('LATER'), format('LATER: refused: serial EAST1 is registered for EAST at %s', pg_temp.at('3 hours') AT TIME ZONE 'UTC'), 'whose it was then decides');
UPDATE head_office.instrument SET until = pg_temp.at('30 minutes') WHERE bridge = 'NORTH' AND serial = 'EAST1';
CALL weigh('NORTH', 'single', 'A-1', 9000, 5000, age => '10 minutes', serial => 'EAST1');
SELECT is(load('NORTH'), format('NORTH: refused: serial EAST1 is not registered at %s', pg_temp.at('10 minutes') AT TIME ZONE 'UTC'), 'an instrument may belong to nobody any more');
SELECT is(as_login('ada', format('INSERT INTO head_office.instrument VALUES (''EAST1'', ''NORTH'', %L)', pg_temp.at('30 minutes'))), 'done', '  and come back to a bridge that had it');
SELECT is(load('NORTH'), 'NORTH: records 2, added 1, findings 0, new 0', '  which weighs with it again');
SELECT is(rows($$SELECT bridge, since, until FROM head_office.instrument WHERE serial = 'LATER1'$$), '(LATER,-infinity,infinity)', 'one without words belongs to its bridge always');

-- A plate that is sold
CALL bridge('PLATES', zone => 'Europe/Berlin');
CALL weigh('PLATES', 'single', 'S-1', 9000, 5000, at => '2026-06-29 21:59:59');
CALL weigh('PLATES', 'single', 'S-1', 9000, 5000, at => '2026-06-29 22:00:00');
CALL weigh('PLATES', 'single', 'S-1', 9000, 5000, at => '2026-06-30 22:00:00');
SELECT alike(load('PLATES'), 'PLATES: records 3, added 3,%', 'three tickets of a plate');
SELECT is(as_login('ada', $$INSERT INTO head_office.haulier (haulier, plate, since) VALUES ('Former', 'S-1', '-infinity'), ('Next', 'S-1', '2026-07-01')$$), 'done', 'a plate has two hauliers');
SELECT is(rows($$SELECT haulier, array_agg(ticket ORDER BY ticket) FROM head_office.haulier_ticket GROUP BY 1 ORDER BY 1$$), '(Former,"{1,2,3}") (Next,{3})', '  and its tickets are those of both');
SELECT is(as_login('ada', $$UPDATE head_office.haulier SET until = '2026-06-30' WHERE haulier = 'Former'$$), 'done', 'from a day on it isn''t the former one''s');
SELECT is(rows($$SELECT haulier, array_agg(ticket ORDER BY ticket) FROM head_office.haulier_ticket GROUP BY 1 ORDER BY 1$$), '(Former,{1}) (Next,{3})', '  in the zone of the bridge');
SELECT is(as_login('ada', $$INSERT INTO head_office.haulier VALUES ('Former', 'S-1', '2026-06-29')$$), '23505', 'no ticket counts twice for a haulier');
SELECT is(as_login('ada', $$INSERT INTO head_office.haulier VALUES ('Former', 'S-1', '2026-06-30')$$), 'done', '  who may have the plate again');
SELECT is(as_login('ada', $$UPDATE head_office.haulier SET until = '2026-07-01' WHERE haulier = 'Former' AND since < '2026-06-30'$$), '23505', '  once at a time');
SELECT is(as_login('ada', $$UPDATE head_office.haulier SET haulier = 'Next'$$), '42501', 'whose a plate was stays');
SELECT is(as_login('ada', $$INSERT INTO head_office.haulier VALUES ('Former', 'S-2', '2026-06-30', '2026-06-30')$$), '23514', 'a plate is registered for a day at least');

-- Names of zones
SELECT is(value_as('ada', format('INSERT INTO head_office.bridge (bridge, retention_days, zone) VALUES (''ZONE'', 30, %L) RETURNING zone', z)),
    format('22023: there is no time zone %L: write one such as Europe/Berlin, of the view pg_timezone_names', z), 'no zone: ' || z)
    FROM unnest('{UTC+2,Etc/GMT-2,CET-1CEST,CEST,<+02>-02,+02:00,Europe/Nowhere}'::text[]) z;
SELECT is(value_as('ada', format('INSERT INTO head_office.bridge (bridge, retention_days, zone) VALUES (%L, 30, %L) RETURNING zone', 'Z' || n, z)), z, 'a zone: ' || z)
    FROM unnest('{UTC,Europe/Berlin,America/Port-au-Prince}'::text[]) WITH ORDINALITY t (z, n);
SELECT is(as_login('ada', $$UPDATE head_office.bridge SET zone = 'UTC+2' WHERE bridge = 'EAST'$$), '22023', '  also of a bridge that is there');

-- A bridge is renamed
SET LOCAL client_min_messages = error;
CALL bridge('WEST');
INSERT INTO head_office.loader VALUES ('bridge_north', 'WEST');
SET LOCAL client_min_messages = warning;
CALL weigh('WEST', 'single', 'A-1', 9000, 5000, version => 1);
CALL loaded('WEST');
CALL new_file('WEST', follows => true);
CREATE FUNCTION pg_temp.named(name text) RETURNS text LANGUAGE sql AS $$
SELECT concat_ws(' ', (SELECT count(*) FROM head_office.instrument WHERE bridge = name), (SELECT count(*) FROM head_office.journal WHERE bridge = name),
    (SELECT count(*) FROM head_office.follower WHERE bridge = name), (SELECT count(*) FROM head_office.loader WHERE bridge = name),
    (SELECT sum(tickets) FROM head_office.day_total WHERE bridge = name), (SELECT sum(tickets) FROM head_office.computed_day_total WHERE bridge = name)) $$;
SELECT is(value_as('ada', $$UPDATE head_office.bridge SET bridge = 'COAST' WHERE bridge = 'WEST' RETURNING bridge$$), 'COAST', 'a bridge is renamed');
SELECT is(pg_temp.named('COAST'), '1 2 1 1 1 1', '  with its instrument, journals, follower, loader and totals');
SELECT is(pg_temp.named('WEST'), '0 0 0 0', '  and nothing has the former name');
SELECT is(rows($$SELECT was ->> 'bridge', is_now ->> 'bridge', by FROM head_office.change WHERE of_table = 'bridge' ORDER BY change DESC LIMIT 1$$), '(WEST,COAST,ada)', '  which is written down');
CALL copy_book('WEST', 'WEST-2');
CALL weigh('WEST-2', 'single', 'A-1', 9000, 5000, serial => 'WEST1');
SELECT is(load('WEST-2', 'WEST', by => 'bridge_north'), 'COAST: records 2, added 2, findings 0, new 0', 'a load under the former name is the bridge''s');
CALL weigh('WEST-2', 'single', 'A-1', 9000, 5000, serial => 'WEST1');
SELECT is(load('WEST-2', 'COAST', by => 'bridge_north'), 'COAST: records 3, added 1, findings 0, new 0', '  and one under the present name');
SELECT is(value_as('bridge_north', $$SELECT head_office.begin_load('WEST')$$), NULL, 'a load may begin under the former name');
SELECT is(value_as('bridge_north', $$SELECT head_office.wants_whole('WEST')$$), 'false', '  is asked for a whole export as under the present one');
SELECT is(value_as('bridge_north', $$SELECT split_part(head_office.receipt_of_load('WEST'), '.', 2)$$), '2', '  gets its receipt');
SELECT is(value_as('bridge_north', $$SELECT head_office.refuse_receipt('WEST', head_office.receipt_of_load('WEST'))$$), NULL, '  which is known');
SELECT is(value_as('bridge_north', $$SELECT head_office.note_refusal('WEST', 'cut', 'of a test')$$), 'COAST: refused: of a test', '  and may be refused');
SELECT is(as_login('ada', $$INSERT INTO head_office.bridge (bridge, retention_days) VALUES ('WEST', 30)$$), '23505', 'no other bridge gets the former name');
SELECT is(as_login('ada', $$UPDATE head_office.bridge SET bridge = 'WEST' WHERE bridge = 'LATER'$$), '23505', '  also no one that is there');
SELECT is(as_login('ada', $$UPDATE head_office.bridge SET bridge = 'LATER' WHERE bridge = 'COAST'$$), '23505', 'two bridges have two names');
SELECT is(as_login('ada', $$UPDATE head_office.bridge SET bridge = 'A B' WHERE bridge = 'COAST'$$), '23514', '  of the usual form');
SELECT is(as_login('ada', $$UPDATE head_office.bridge SET bridge = 'SHORE' WHERE bridge = 'COAST'$$), 'done', 'it is renamed again');
SELECT is(rows('SELECT former, bridge FROM head_office.former_name ORDER BY 1'), '(COAST,SHORE) (WEST,SHORE)', '  and both former names are its own');
SELECT is(as_login('ada', $$UPDATE head_office.bridge SET bridge = 'WEST' WHERE bridge = 'SHORE'$$), 'done', 'it gets its first name back');
SELECT is(rows('SELECT former, bridge FROM head_office.former_name ORDER BY 1'), '(COAST,WEST) (SHORE,WEST)', '  which is no former one any more');
SELECT is(as_login('ada', $$DELETE FROM head_office.former_name WHERE former = 'COAST'$$), 'done', 'a former name that no load has any more may be removed');
SELECT is(rows($$SELECT was ->> 'former', was ->> 'bridge', is_now, by FROM head_office.change WHERE of_table = 'former_name' ORDER BY change DESC LIMIT 1$$), '(COAST,WEST,,ada)', '  which is written down');
SELECT is(as_login('ada', $$INSERT INTO head_office.bridge (bridge, retention_days) VALUES ('COAST', 30)$$), 'done', '  and given again');
SELECT is(as_login('office', $$UPDATE head_office.bridge SET bridge = 'MINE' WHERE bridge = 'WEST'$$), '42501', 'a reader renames nothing');

-- A bridge is retired
CALL weigh('WEST-2', 'first', 'B-1', 9000, serial => 'WEST1');
SELECT is(load('WEST-2', 'WEST', by => 'bridge_north'), 'WEST: records 4, added 1, findings 0, new 0', 'a bridge has a vehicle on site');
UPDATE head_office.bridge SET load_within = '1 second', entry_within = '1 second', whole_within = '1 second' WHERE bridge = 'WEST';
UPDATE head_office.standing SET whole_at = whole_at - interval '1 hour' WHERE journal = journal_of('WEST');
INSERT INTO head_office.load (journal, at, records, added, findings, new_findings) VALUES (journal_of('WEST'), now() - interval '1 hour', 0, 0, 0, 0);
CREATE FUNCTION pg_temp.missed() RETURNS text LANGUAGE sql AS $$
SELECT rows($q$SELECT is_silent, is_idle, is_overdue FROM head_office.heard WHERE bridge = 'WEST'$q$) || rows($q$SELECT plate FROM head_office.on_site WHERE bridge = 'WEST'$q$) $$;
SELECT is(pg_temp.missed(), '(t,t,t)(B-1)', '  and is missed');
SELECT is(as_login('ada', $$UPDATE head_office.bridge SET retired_at = now() + interval '1 second' WHERE bridge = 'WEST'$$), 'done', 'the registrar retires it');
SELECT is(pg_temp.missed(), '(t,t,t)(B-1)', '  from a moment on');
UPDATE head_office.bridge SET retired_at = now() WHERE bridge = 'WEST';
SELECT is(pg_temp.missed(), '(f,f,f)', '  from which it isn''t missed, and no vehicle is on site');
SELECT is(load('WEST-2', 'WEST', by => 'bridge_north'), format('WEST: refused: WEST was retired on %s: if it weighs again, UPDATE head_office.bridge SET retired_at = NULL', to_char(now() AT TIME ZONE 'UTC', 'YYYY-MM-DD HH24:MI:SS "UTC"')), '  and its loads are refused');
SELECT is((SELECT sum(tickets) FROM head_office.day_total WHERE bridge = 'WEST'), 3::numeric, '  its tickets stay');
UPDATE head_office.bridge SET retired_at = NULL WHERE bridge = 'WEST';
SELECT is(load('WEST-2', 'WEST', by => 'bridge_north'), 'WEST: records 4, added 0, findings 0, new 0', 'it may come back');

-- An export that comes late
CALL bridge('LATE');
CALL weigh_pairs('LATE', 3);
SELECT is(load('LATE', without => '{3}', fetched => present() - interval '30 minutes'), 'LATE: records 5, added 5, findings 2, new 2', 'an export lacks an entry');
CREATE FUNCTION pg_temp.late() RETURNS text LANGUAGE sql AS $$
SELECT rows($q$SELECT sum(tickets), sum(net_kg) FROM head_office.day_total WHERE bridge = 'LATE'$q$) || rows('SELECT * FROM head_office.sum_difference') $$;
SELECT is(pg_temp.late(), '(2,40000)', '  so a ticket is missing');
SELECT is(load('LATE', without => '{3}', fetched => present() - interval '1 hour'), format('LATE: refused: this export was fetched at %s, and one of %s was loaded before', present() - interval '1 hour', present() - interval '30 minutes'), 'one that was fetched before, and lacks it too, is refused');
SELECT is(load('LATE', last => 4, fetched => present() - interval '1 hour'), 'LATE: records 4, added 1, findings 0, new 0', 'one that has it is taken, although it ends before');
SELECT is(pg_temp.late(), '(3,60000)', '  and the ticket counts');
SELECT is(rows(format($$SELECT fetched_at = %1$L, whole_at = %1$L FROM head_office.standing WHERE journal = journal_of('LATE')$$, present() - interval '30 minutes')), '(t,t)', '  the newest export stays the newest');
SELECT alike(load('LATE', last => 4, fetched => present() - interval '1 hour'), 'LATE: refused: this export was fetched at %', 'it is refused when it comes again');
SELECT alike(load('LATE', fetched => present() - interval '1 hour', first => 7), 'LATE: refused: this export was fetched at %', '  and so is one without a record');
CALL weigh('LATE', 'single', 'A-1', 9000, 5000, age => '1 minute');
SELECT alike(load('LATE', fetched => present() - interval '1 hour'), 'LATE: refused: this export was fetched at %', '  or with one that is newer than all that is stored');
CALL loaded('LATE', fetched => present());
CALL bridge('FORGED');
CALL weigh_pairs('FORGED', 3);
SELECT is(load('FORGED', without => '{3}', fetched => present() - interval '30 minutes'), 'FORGED: records 5, added 5, findings 2, new 2', 'an export lacks an entry, too');
UPDATE record SET gross_kg = 12000 WHERE book = 'FORGED' AND number = 3;
CALL chain('FORGED', 3);
SELECT is(load('FORGED', last => 3, fetched => present() - interval '1 hour'), 'FORGED: records 3, added 1, findings 1, new 1', 'another entry comes in its place');
SELECT ok('{unchained 4}' <@ findings('FORGED'), '  to which the next one isn''t chained');
SELECT * FROM finish();
ROLLBACK;
