-- Rows that nobody changes, rows that only a load stores, and the row that each change of a registration adds to `change`.
BEGIN;
SET LOCAL search_path = test, tap;
SELECT plan(59);

CALL bridge('NORTH');
CALL weigh('NORTH', 'single', 'A-1', 9000, 5000);
CALL loaded('NORTH');
INSERT INTO head_office.finding (journal, what, first, last, record) VALUES (journal_of('NORTH'), 'unseen', 1, 1, 'of a test');
INSERT INTO head_office.acknowledgement (finding, note) SELECT finding, 'looked at' FROM head_office.finding;
INSERT INTO head_office.refusal (bridge, reason, why) VALUES ('NORTH', 'cut', 'of a test');

-- Not even a superuser changes these.
SELECT throws_ok(format('UPDATE head_office.%I SET %I = %I', t, c, c), 'P0001', t || ' is never changed', t || ' isn''t changed')
    FROM (VALUES ('entry', 'gross_kg'), ('finding', 'record'), ('load', 'added'), ('acknowledgement', 'note'), ('refusal', 'why'), ('change', 'was'),
        ('sealed_year', 'digest'), ('sealed_entry', 'gross_kg'), ('follower', 'former')) v (t, c);
SELECT throws_ok('DELETE FROM head_office.' || t, 'P0001', t || ' is never changed', 'nothing is deleted from ' || t)
    FROM unnest('{entry,finding,load,acknowledgement,refusal,change,sealed_year,sealed_entry}'::text[]) t;
SELECT throws_ok('TRUNCATE head_office.' || t || ' CASCADE', 'P0001', NULL, t || ' isn''t emptied')
    FROM unnest('{entry,finding,load,acknowledgement,refusal,change,sealed_year,sealed_entry,follower}'::text[]) t;
SELECT is(as_login('ada', 'UPDATE head_office.' || t || ' SET ' || c || ' = ' || c), '42501', 'the registrar doesn''t change ' || t || ' either')
    FROM (VALUES ('entry', 'gross_kg'), ('finding', 'record'), ('acknowledgement', 'note'), ('refusal', 'why')) v (t, c);

-- Only a load stores entries.
CREATE FUNCTION pg_temp.insertion(of_table text) RETURNS text LANGUAGE sql AS $$
SELECT format('INSERT INTO head_office.%I SELECT journal, number + 1, key, kind, plate, moment, gross_kg, preset_kg, interval_kg, max_kg, serial, digest, received_at, previous, year FROM head_office.entry', of_table) $$;
SELECT throws_ok(pg_temp.insertion('entry'), 'P0001', 'entry is stored by a load alone', 'a superuser stores no entry');
SELECT throws_ok(pg_temp.insertion('entry_' || extract(year FROM now() AT TIME ZONE 'UTC')), 'P0001', NULL, '  also not in the table of its year');
SELECT is(as_login('keeper', pg_temp.insertion('entry'), 'head_office'), 'P0001', '  nor does the owner of the schema');

-- Every other trigger of this kind is there for each statement, and fires always.
SELECT is(rows($$SELECT tgrelid::regclass, tgname FROM pg_trigger WHERE NOT tgisinternal AND tgrelid IN (SELECT oid FROM pg_class WHERE relnamespace = 'head_office'::regnamespace) AND tgenabled <> 'O'$$), '',
    'no trigger is off');
SELECT is(rows($$SELECT c.relname FROM pg_class c WHERE relnamespace = 'head_office'::regnamespace AND relname ~ '^entry_' AND relkind = 'r'
    AND NOT EXISTS (SELECT FROM pg_trigger WHERE tgrelid = c.oid AND tgname = 'never_changed' AND tgtype & 62 = 62)$$), '',
    'the table of each year refuses to be written, changed, emptied, and deleted from');

-- Each change of a registration is a row of `change`, with the login.
CREATE FUNCTION pg_temp.newest_change() RETURNS text LANGUAGE sql AS $$
SELECT rows('SELECT of_table, was IS NULL AS is_new, is_now IS NULL AS is_gone, by FROM head_office.change ORDER BY change DESC LIMIT 1') $$;
SELECT is(as_login('ada', $$INSERT INTO head_office.bridge (bridge, retention_days) VALUES ('EAST', 30)$$), 'done', 'the registrar registers a bridge');
SELECT is(pg_temp.newest_change(), '(bridge,t,f,ada)', '  which is written down with her name');
SELECT is(as_login('ada', $$UPDATE head_office.bridge SET retention_days = 90 WHERE bridge = 'EAST'$$), 'done', 'she changes it');
SELECT is(rows($$SELECT of_table, was ->> 'retention_days', is_now ->> 'retention_days', by FROM head_office.change ORDER BY change DESC LIMIT 1$$), '(bridge,30,90,ada)',
    '  which is written down with both values');
SELECT is(as_login('ada', $$INSERT INTO head_office.instrument VALUES ('EAST1', 'EAST')$$), 'done', 'she registers an instrument');
SELECT is(pg_temp.newest_change(), '(instrument,t,f,ada)', '  which is written down');
SELECT is(as_login('ada', $$INSERT INTO head_office.journal (bridge) VALUES ('EAST')$$), 'done', 'and a journal');
SELECT is(pg_temp.newest_change(), '(journal,t,f,ada)', '  which is written down');
SELECT is((SELECT count(*) FROM head_office.standing WHERE journal = journal_of('EAST')), 1::bigint, '  and gets its standing');
SELECT is(as_login('ada', $$INSERT INTO head_office.loader VALUES ('bridge_south', 'EAST')$$), 'done', 'and a loader');
SELECT is(pg_temp.newest_change(), '(loader,t,f,ada)', '  which is written down');
SELECT is(as_login('ada', $$DELETE FROM head_office.loader WHERE login = 'bridge_south'$$), 'done', 'she removes the loader');
SELECT is(pg_temp.newest_change(), '(loader,f,t,ada)', '  which is written down');
SELECT is(as_login('ada', $$INSERT INTO head_office.haulier VALUES ('Sand & Kies', 'A-1')$$), 'done', 'she registers a plate of a haulier');
SELECT is(pg_temp.newest_change(), '(haulier,t,f,ada)', '  which is written down');
SELECT is(as_login('ada', $$DELETE FROM head_office.haulier$$), 'done', 'she removes it');
SELECT is(pg_temp.newest_change(), '(haulier,f,t,ada)', '  which is written down');
SELECT is(as_login('ada', $$INSERT INTO head_office.journal (bridge) VALUES ('EAST')$$), 'done', 'she registers another journal');
SELECT is(as_login('ada', $$INSERT INTO head_office.follower SELECT 'EAST', max(journal), min(journal) FROM head_office.journal WHERE bridge = 'EAST'$$), 'done',
    '  which follows the former one');
SELECT is(pg_temp.newest_change(), '(follower,t,f,ada)', '  which is written down');
SELECT is(as_login('ada', $$DELETE FROM head_office.journal WHERE journal = (SELECT max(journal) FROM head_office.journal WHERE bridge = 'EAST')$$), 'done', 'and removes that journal');
SELECT is(rows($$SELECT of_table FROM head_office.change ORDER BY change DESC LIMIT 2$$), '(follower) (journal)', '  which is written down with the follower');
SELECT is(as_login('ada', $$DELETE FROM head_office.journal WHERE bridge = 'NORTH'$$), '23503', 'a journal with entries stays');
SELECT is((SELECT count(*) FROM head_office.change WHERE by NOT IN ('ada', 'keeper')), 0::bigint, 'nobody else changed anything');
SELECT * FROM finish();
ROLLBACK;
