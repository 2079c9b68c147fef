-- Registrations that are accepted, and those that are refused.
BEGIN;
SET LOCAL search_path = test, tap;
SELECT plan(58);
SET LOCAL client_min_messages = error;
CREATE FUNCTION pg_temp.registers(bridge text, fields text DEFAULT '', field_values text DEFAULT '') RETURNS text LANGUAGE sql AS $$
SELECT as_login('ada', format('INSERT INTO head_office.bridge (bridge, retention_days%s) VALUES (%L, 30%s)', fields, bridge, field_values)) $$;
SELECT is(pg_temp.registers('A'), 'done', 'a bridge has a name');
SELECT is(pg_temp.registers(repeat('B', 32)), 'done', '  of at most 32 characters');
SELECT is(pg_temp.registers(repeat('C', 33)), '23514', '  and not more');
SELECT is(pg_temp.registers(''), '23514', '  or none');
SELECT is(pg_temp.registers('A B'), '23514', '  without a blank');
SELECT is(pg_temp.registers('A'), '23505', '  and once');
SELECT is(pg_temp.registers('Z1', ', zone', ', ''Europe/Berlin'''), 'done', 'a zone is one that the server knows');
SELECT is(pg_temp.registers('Z2', ', zone', ', ''Europe/Nowhere'''), '22023', '  and no other');
SELECT is(pg_temp.registers('L1', ', load_within', ', ''0'''), '23514', 'a time without a load is positive');
SELECT is(pg_temp.registers('L2', ', load_within', ', ''1 second'''), 'done', '  however short');
SELECT is(pg_temp.registers('E1', ', entry_within', ', ''-1 day'''), '23514', 'a time without an entry is positive');
SELECT is(pg_temp.registers('E2', ', entry_within', ', NULL'), 'done', '  or none');
SELECT is(pg_temp.registers('W1', ', whole_within', ', ''0'''), '23514', 'a time without a whole export is positive');
SELECT is(pg_temp.registers('P1', ', places', ', 1'), '23514', 'a journal has at least two places');
SELECT is(pg_temp.registers('P2', ', places', ', 2'), 'done', '  at least');
SELECT is(pg_temp.registers('P3', ', places', ', 100000'), 'done', '  and at most 100,000');
SELECT is(pg_temp.registers('P4', ', places', ', 100001'), '23514', '  and not more');
SELECT is(pg_temp.registers('Y1', ', plate_years', ', 0'), '23514', 'plates are kept for at least a year');
SELECT is(pg_temp.registers('Y2', ', plate_years', ', 1'), 'done', '  or for one');
SELECT is(as_login('ada', $$INSERT INTO head_office.bridge (bridge, retention_days) VALUES ('R1', 0)$$), '23514', 'entries are kept for a day at least');
SELECT is(as_login('ada', $$INSERT INTO head_office.bridge (bridge, retention_days) VALUES ('R2', 3650)$$), 'done', '  and for 3,650 at most');
SELECT is(as_login('ada', $$INSERT INTO head_office.bridge (bridge, retention_days) VALUES ('R3', 3651)$$), '23514', '  and not more');
SELECT is(as_login('ada', $$INSERT INTO head_office.bridge (bridge) VALUES ('R4')$$), '23502', '  and somebody says for how many');

-- Instruments
SELECT is(as_login('ada', $$INSERT INTO head_office.instrument VALUES ('WB01', 'A')$$), 'done', 'an instrument belongs to a bridge');
SELECT is(as_login('ada', $$INSERT INTO head_office.instrument VALUES ('WB01', 'R2')$$), '23505', '  and to one only');
SELECT is(as_login('ada', $$INSERT INTO head_office.instrument VALUES ('WB02', 'A')$$), 'done', '  which may have several');
SELECT is(as_login('ada', $$INSERT INTO head_office.instrument VALUES ('wb03', 'A')$$), '23514', 'a serial has capitals');
SELECT is(as_login('ada', $$INSERT INTO head_office.instrument VALUES ('12345678901234567', 'A')$$), '23514', '  and at most 16 characters');
SELECT is(as_login('ada', $$INSERT INTO head_office.instrument VALUES ('WB04', 'NOWHERE')$$), '23503', 'a bridge must be registered first');
SELECT is(as_login('ada', $$UPDATE head_office.instrument SET bridge = 'R2'$$), '42501', 'whose instrument it is stays');
SELECT is(as_login('ada', $$DELETE FROM head_office.instrument$$), '42501', '  and that it is one');
SELECT is(as_login('ada', $$DELETE FROM head_office.bridge$$), '42501', 'a bridge isn''t removed');

-- Hauliers
SELECT is(as_login('ada', $$INSERT INTO head_office.haulier VALUES ('Sand & Kies', 'AB-12')$$), 'done', 'a haulier has plates');
SELECT is(as_login('ada', $$INSERT INTO head_office.haulier VALUES ('Sand & Kies', 'AB-12')$$), '23505', '  each once');
SELECT is(as_login('ada', $$INSERT INTO head_office.haulier VALUES ('Other', 'AB-12')$$), 'done', '  and a plate may have two hauliers');
SELECT is(as_login('ada', $$INSERT INTO head_office.haulier VALUES ('Other', 'ab-12')$$), '23514', 'a plate has capitals');
SELECT is(as_login('ada', $$INSERT INTO head_office.haulier VALUES (' Other', 'AB-12')$$), '23514', 'a name begins with no blank');
SELECT is(as_login('ada', format($$INSERT INTO head_office.haulier VALUES (%L, 'AB-12')$$, repeat('x', 65))), '23514', '  and has at most 64 characters');

-- Loaders
SELECT is(as_login('ada', $$INSERT INTO head_office.loader VALUES ('bridge_north', 'A')$$), 'done', 'a login loads a bridge');
SELECT is(as_login('ada', $$INSERT INTO head_office.loader VALUES ('bridge_north', 'A')$$), '23505', '  registered once');
SELECT is(as_login('ada', $$INSERT INTO head_office.loader VALUES ('bridge_north', NULL)$$), 'done', '  or all of them');
SELECT is(as_login('ada', $$INSERT INTO head_office.loader VALUES ('bridge_north', NULL)$$), '23505', '  registered once, too');
SELECT is(as_login('ada', $$INSERT INTO head_office.loader VALUES ('bridge_north', 'NOWHERE')$$), '23503', 'of a registered bridge');
SELECT is(rows($$SELECT login, bridge, is_there, may_log_in, connections FROM head_office.loader_login WHERE login = 'bridge_north' AND bridge = 'A'$$), '(bridge_north,A,t,t,3)',
    'the view shows how many connections a login may open');
SELECT is(as_login('ada', $$INSERT INTO head_office.loader VALUES ('nobody_at_all', 'A')$$), 'done', 'a login may be registered before it is there');
SELECT is(rows($$SELECT is_there, may_log_in, connections FROM head_office.loader_login WHERE login = 'nobody_at_all'$$), '(f,,)', '  which the view shows');

-- Records that a login gives to a load
SET LOCAL client_min_messages = warning;
CREATE FUNCTION pg_temp.gives(count integer, login text DEFAULT 'bridge_north', more text DEFAULT '', more_values text DEFAULT '') RETURNS text LANGUAGE sql AS $$
SELECT as_login(login, format('INSERT INTO head_office.handed (number, key, kind, plate, moment, interval_kg, max_kg, serial, digest%s)
    SELECT n, ''K'', ''void'', ''X'', now(), 20, 60000, ''WB01'', ''''%s FROM generate_series(1, %s) n', more, more_values, count)) $$;
CREATE FUNCTION pg_temp.given(its text DEFAULT 'bridge_north') RETURNS bigint LANGUAGE sql AS $$ SELECT count(*) FROM head_office.handed WHERE login = its $$;
SELECT is(pg_temp.gives(3, 'bridge_south'), '42501', 'a login that loads no bridge gives no records');
SET LOCAL client_min_messages = error;
INSERT INTO head_office.loader VALUES ('bridge_south', NULL);
SELECT is(pg_temp.gives(3), 'done', 'a login gives records');
SELECT is(pg_temp.given(), 3::bigint, '  which stay in the transaction');
SELECT is(pg_temp.gives(1, more => ', login', more_values => ', ''bridge_south'''), '42501', '  not in another login''s name');
SELECT is(pg_temp.gives(1, more => ', within', more_values => ', ''5'''), '42501', '  or for another transaction');
SELECT is(as_login('bridge_north', 'SELECT * FROM head_office.handed'), '42501', '  and it can''t read them again');
SELECT is(as_login('bridge_north', 'DELETE FROM head_office.handed'), '42501', '  or remove them');
UPDATE head_office.handed SET within = '3'::xid8 WHERE login = 'bridge_north';
SELECT is(pg_temp.gives(2, 'bridge_south'), 'done', 'another login gives some');
SELECT is(pg_temp.given(), 3::bigint, '  and leaves those of the first one');
SELECT is(pg_temp.gives(1), 'done', 'the first one gives one in another transaction');
SELECT is(pg_temp.given(), 1::bigint, '  and what it gave before is gone');
SELECT is(pg_temp.gives(100000), '54000', 'more records than a journal has places are refused');
SELECT * FROM finish();
ROLLBACK;
