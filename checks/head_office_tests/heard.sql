-- When each bridge was heard of last: silence, nothing weighed, an overdue whole export.
BEGIN;
SET LOCAL search_path = test, tap;
SELECT plan(35);

CREATE FUNCTION pg_temp.heard(name text) RETURNS text LANGUAGE sql AS $$
SELECT rows(format('SELECT number, is_silent, is_idle, is_overdue FROM head_office.heard WHERE bridge = %L', name)) $$;
-- A load of a bridge, some time ago
CREATE PROCEDURE pg_temp.add_load(name text, age interval) LANGUAGE sql AS $$
INSERT INTO head_office.load (journal, at, records, added, findings, new_findings) VALUES (journal_of(name), now() - age, 0, 0, 0, 0) $$;

CALL bridge('NEVER');
SELECT is(pg_temp.heard('NEVER'), '(,t,f,f)', 'a bridge of which nothing was ever loaded is silent');
UPDATE head_office.bridge SET entry_within = '4 days' WHERE bridge = 'NEVER';
SELECT is(pg_temp.heard('NEVER'), '(,t,t,f)', '  and nothing was weighed there');
INSERT INTO head_office.bridge (bridge, retention_days) VALUES ('NOTHING', 30);
SELECT is(pg_temp.heard('NOTHING'), '(,t,f,f)', 'a bridge without a journal is silent');
SELECT is(rows($$SELECT load_within, entry_within, whole_within FROM head_office.bridge WHERE bridge = 'NOTHING'$$), '(03:00:00,,"7 days")',
    'a load is expected within three hours, an entry never, and a whole export within a week');

CALL bridge('SILENT');
CALL pg_temp.add_load('SILENT', '3 hours');
SELECT is((SELECT is_silent FROM head_office.heard WHERE bridge = 'SILENT'), false, 'three hours without a load are no silence');
SELECT is((SELECT loaded FROM head_office.heard WHERE bridge = 'SILENT'), now() - interval '3 hours', '  and the time of that load is shown');
UPDATE head_office.bridge SET load_within = '2 hours 59 minutes 59 seconds' WHERE bridge = 'SILENT';
SELECT is((SELECT is_silent FROM head_office.heard WHERE bridge = 'SILENT'), true, 'a second more than registered is');
UPDATE head_office.bridge SET load_within = '2 days' WHERE bridge = 'SILENT';
SELECT is((SELECT is_silent FROM head_office.heard WHERE bridge = 'SILENT'), false, '  unless more is registered');
CALL bridge('AGAIN');
CALL pg_temp.add_load('AGAIN', '5 hours');
CALL pg_temp.add_load('AGAIN', '1 hour');
SELECT is((SELECT is_silent FROM head_office.heard WHERE bridge = 'AGAIN'), false, 'the last load counts');
CALL new_file('AGAIN');
SELECT is((SELECT is_silent FROM head_office.heard WHERE bridge = 'AGAIN'), true, '  and only one of the newest journal');

CALL bridge('IDLE');
CALL weigh('IDLE', 'single', 'A-1', 9000, 5000, age => '5 days');
CALL weigh('IDLE', 'single', 'A-1', 9000, 5000, age => '4 days');
CALL loaded('IDLE');
SELECT is(pg_temp.heard('IDLE'), '(2,f,f,f)', 'a bridge may weigh nothing for days');
UPDATE head_office.bridge SET entry_within = '4 days 2 seconds' WHERE bridge = 'IDLE';
SELECT is(pg_temp.heard('IDLE'), '(2,f,f,f)', '  unless an entry is expected');
UPDATE head_office.bridge SET entry_within = '3 days 23 hours' WHERE bridge = 'IDLE';
SELECT is(pg_temp.heard('IDLE'), '(2,f,t,f)', '  which didn''t come in time');
SELECT is((SELECT newest FROM head_office.heard WHERE bridge = 'IDLE'), present() - interval '4 days', '  and the moment of the newest one is shown');

-- The whole export
CREATE FUNCTION pg_temp.wants(name text) RETURNS boolean LANGUAGE sql AS $$ SELECT head_office.wants_whole(name) $$;
CALL bridge('WHOLE');
CALL weigh('WHOLE', 'single', 'A-1', 9000, 5000, age => '20 days');
SELECT is(pg_temp.wants('WHOLE'), true, 'the first export of a bridge is wanted whole');
CALL loaded('WHOLE', fetched => now() - interval '7 days');
SELECT is(pg_temp.wants('WHOLE'), false, 'then the newest entries do, for a week');
SELECT is((SELECT whole FROM head_office.heard WHERE bridge = 'WHOLE'), now() - interval '7 days', '  which begins when the whole export was fetched');
SELECT is((SELECT is_overdue FROM head_office.heard WHERE bridge = 'WHOLE'), false, '  and isn''t overdue yet');
UPDATE head_office.bridge SET whole_within = '6 days 23 hours 59 minutes 59 seconds' WHERE bridge = 'WHOLE';
SELECT is(pg_temp.wants('WHOLE'), true, 'a second more, and it is wanted whole');
SELECT is((SELECT is_overdue FROM head_office.heard WHERE bridge = 'WHOLE'), true, '  and overdue');
CALL weigh('WHOLE', 'single', 'A-1', 9000, 5000);
CALL loaded('WHOLE', newest => true);
SELECT is((SELECT is_overdue FROM head_office.heard WHERE bridge = 'WHOLE'), true, 'a load of the newest entries is no whole export');
SELECT is(pg_temp.wants('WHOLE'), true, '  and it is wanted still');
CALL loaded('WHOLE');
SELECT is((SELECT is_overdue FROM head_office.heard WHERE bridge = 'WHOLE'), false, 'a whole export is one');
SELECT is(pg_temp.wants('WHOLE'), false, '  and then the newest entries do');
SELECT is(value_as('bridge_south', $$SELECT head_office.wants_whole('WHOLE')$$), 'true', '  but a login that doesn''t load the bridge learns nothing of that');
CALL new_file('WHOLE');
SELECT is(pg_temp.wants('WHOLE'), true, 'a new file is wanted whole');
SELECT is(pg_temp.wants('NOWHERE'), true, 'an unknown bridge''s export is wanted whole, so that it is refused');

-- Last loads, and what a later one makes up for
SELECT is((SELECT at FROM head_office.last_load WHERE bridge = 'AGAIN'), now() - interval '1 hour', 'the last load of a bridge is of any of its journals');
INSERT INTO head_office.finding (journal, what, first, last, record, at) VALUES
    (journal_of('AGAIN'), 'not loaded', 0, 1, 'before', now() - interval '1 hour 1 second'),
    (journal_of('AGAIN'), 'not loaded', 0, 2, 'after', now() - interval '59 minutes'),
    (journal_of('AGAIN'), 'refused', 0, 3, 'refused before', now() - interval '2 hours'),
    (journal_of('NEVER'), 'not loaded', 0, 4, 'never loaded', now() - interval '2 hours');
SELECT is(rows($$SELECT record, is_made_up FROM head_office.finding_beside_stored WHERE bridge = 'AGAIN' ORDER BY record$$),
    '(after,f) (before,t) ("refused before",f)', 'a load makes up only for a load before it that was overtaken');
SELECT is(rows($$SELECT record FROM head_office.open_finding WHERE bridge IN ('AGAIN', 'NEVER') ORDER BY record$$), '(after) ("never loaded") ("refused before")',
    '  which is no open finding any more');
INSERT INTO head_office.acknowledgement (finding, note) SELECT finding, 'looked at' FROM head_office.open_finding WHERE record = 'after';
SELECT is(rows($$SELECT record FROM head_office.open_finding WHERE bridge IN ('AGAIN', 'NEVER') ORDER BY record$$), '("never loaded") ("refused before")',
    'nor is one that somebody acknowledged');
SELECT is(rows($$SELECT note, acknowledged_by FROM head_office.finding_beside_stored WHERE record = 'after'$$), '("looked at",keeper)', '  with a note and a name');
SELECT throws_ok($$INSERT INTO head_office.acknowledgement (finding, note) SELECT finding, ' ' FROM head_office.open_finding$$, '23514', NULL, 'an empty note is refused');
SELECT throws_ok($$INSERT INTO head_office.acknowledgement (finding, note) SELECT finding, 'twice' FROM head_office.finding WHERE record = 'after'$$, '23505', NULL,
    'and so is a second one');
SELECT is((SELECT count(*) FROM head_office.finding WHERE what NOT IN (SELECT what FROM head_office.advice)), 0::bigint, 'each finding has its advice');
SELECT * FROM finish();
ROLLBACK;
