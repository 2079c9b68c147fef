-- Loads that are refused: by which reason, which reason comes first, what is written down, and how much of it.
BEGIN;
SET LOCAL search_path = test, tap;
SELECT plan(70);
SET LOCAL client_min_messages = error;
CREATE FUNCTION pg_temp.stored(name text) RETURNS bigint LANGUAGE sql AS $$ SELECT count(*) FROM head_office.entry JOIN head_office.journal USING (journal) WHERE bridge = name $$;
CREATE FUNCTION pg_temp.reasons(name text) RETURNS text[] LANGUAGE sql AS $$ SELECT coalesce(array_agg(reason ORDER BY refusal), '{}') FROM head_office.refusal WHERE bridge = name $$;
CREATE FUNCTION pg_temp.last_refusal() RETURNS text LANGUAGE sql AS $$ SELECT rows('SELECT bridge, by, reason FROM head_office.refusal ORDER BY refusal DESC LIMIT 1') $$;

-- One load with every fault. Each one is repaired in turn, and the next one is the reason.
CALL bridge('NORTH');
CALL bridge('EAST');
CALL weigh('NORTH', 'single', 'A-1', 9000, 5000, age => '3 days');
CALL weigh('NORTH', 'single', 'A-1', 9000, 5000, age => '2 days');
CALL weigh('NORTH', 'single', 'A-1', 9000, 5000, age => '1 day');
CALL loaded('NORTH', fetched => present() - interval '1 hour');
CALL weigh('BAD', 'single', 'A-1', 9000, 5000, serial => 'EAST1', number => 7);
CALL weigh('BAD', 'single', 'A-1', 9000, 5000, serial => 'NORTH1', number => 8, age => '1 minute');
SELECT is(load('BAD', 'NOWHERE', by => 'bridge_north', fetched => present() + interval '1 hour', newest => true), 'NOWHERE: refused: bridge_north hands nothing in for NOWHERE',
    'first of all: who loads');
SELECT is(pg_temp.last_refusal(), '(NOWHERE,bridge_north,login)', '  which is written down');
INSERT INTO head_office.loader VALUES ('bridge_north', 'NORTH');
SELECT is(load('BAD', 'NOWHERE', by => 'bridge_north', fetched => present() + interval '1 hour', newest => true), 'NOWHERE: refused: bridge_north hands nothing in for NOWHERE',
    'a login of one bridge loads no other');
SELECT is(load('BAD', 'EAST', by => 'bridge_north', fetched => present() + interval '1 hour', newest => true), 'EAST: refused: bridge_north hands nothing in for EAST',
    '  not even a registered one');
SELECT is(findings('EAST'), '{refused}', '  where it is a finding');
SELECT is(load('BAD', 'NOWHERE', fetched => present() + interval '1 hour', newest => true), 'NOWHERE: refused: no bridge NOWHERE', 'then: which bridge');
SELECT is(pg_temp.last_refusal(), '(NOWHERE,keeper,bridge)', '  which is written down');
SELECT alike(load('BAD', 'NORTH', by => 'bridge_north', fetched => present() + interval '1 hour', newest => true), 'NORTH: refused: fetched at %', 'then: the clock');
SELECT is(load('BAD', 'NORTH', by => 'bridge_north', fetched => present() - interval '2 hours', newest => true), 'NORTH: refused: serial EAST1 is registered for EAST', 'then: another bridge''s serial');
UPDATE record SET serial = 'WB07' WHERE book = 'BAD' AND number = 7;
CALL chain('BAD');
SELECT is(load('BAD', 'NORTH', by => 'bridge_north', fetched => present() - interval '2 hours', newest => true), 'NORTH: refused: serial WB07 is not registered', '  or one that isn''t registered');
UPDATE record SET serial = 'NORTH1', previous = NULL WHERE book = 'BAD' AND number = 7;
CALL chain('BAD');
SELECT alike(load('BAD', 'NORTH', by => 'bridge_north', fetched => present() - interval '2 hours', newest => true), 'NORTH: refused: entries of version 1 don''t name%',
    'then: the newest entries of version 1');
UPDATE record SET previous = '' WHERE book = 'BAD' AND number = 7;
CALL chain('BAD');
SELECT alike(load('BAD', 'NORTH', by => 'bridge_north', fetched => present() - interval '2 hours', newest => true), 'NORTH: refused: this export was fetched at %', 'then: an older export');
SELECT is(load('BAD', 'NORTH', by => 'bridge_north', newest => true), 'NORTH: refused: the newest entries begin at 7, and what is stored ends at 3: load the whole export',
    'then: newest entries that don''t reach what is stored');
UPDATE record SET digest = left(digest, 60), previous = CASE number WHEN 7 THEN previous ELSE left(previous, 60) END WHERE book = 'BAD' AND number = 8;
SELECT is(load('BAD', 'NORTH', by => 'bridge_north'), 'NORTH: refused: the export is cut off in its last line', 'then: a last line that is cut off');
SELECT is(pg_temp.stored('NORTH'), 3::bigint, 'none of these loads stored anything');
SELECT is((SELECT count(*) FROM head_office.handed), 0::bigint, '  or left what was given');
SELECT is(pg_temp.reasons('NORTH'), '{clock,serial,serial,form,older,newest,cut}', 'each of them is written down');
SELECT is(findings('NORTH'), '{refused,refused,refused,refused,"not loaded","not loaded",refused}', '  and is a finding, of which the next load makes up for two');
SELECT is(rows($$SELECT DISTINCT by FROM head_office.refusal WHERE bridge = 'NORTH'$$), '(bridge_north)', '  with the login');
CALL chain('BAD');
SELECT is(load('BAD', 'NORTH', by => 'bridge_north'), 'NORTH: records 2, added 2, findings 2, new 2', 'the whole export with all of them repaired is taken');

-- Who loads what
SELECT is(load('NORTH', by => 'bridge_south'), 'NORTH: refused: bridge_south hands nothing in for NORTH', 'a login that isn''t registered loads nothing');
INSERT INTO head_office.loader VALUES ('bridge_south', NULL);
SELECT is(load('NORTH', by => 'bridge_south', last => 3, fetched => NULL), 'NORTH: records 3, added 0, findings 1, new 1', 'one that is registered for every bridge loads it');
SELECT is((SELECT by FROM head_office.load ORDER BY load DESC LIMIT 1), 'bridge_south', '  which is written down');
DELETE FROM head_office.loader WHERE login = 'bridge_south';
INSERT INTO head_office.loader VALUES ('bridge_south', 'EAST');
SELECT is(load('NORTH', by => 'bridge_south', last => 3), 'NORTH: refused: bridge_south hands nothing in for NORTH', 'and one of another bridge doesn''t');

-- A record whose digest doesn't fit says nothing of another bridge
CALL weigh('FALSE', 'single', 'A-1', 9000, 5000, serial => 'EAST1');
UPDATE record SET gross_kg = 9020 WHERE book = 'FALSE';
CALL bridge('UNSOUND');
SELECT is(load('FALSE', 'UNSOUND'), 'UNSOUND: records 1, added 0, findings 1, new 1', 'a false record with another bridge''s serial is a finding');
SELECT is(findings('UNSOUND'), '{unsound 1}', '  and doesn''t refuse the load');

-- Journals that aren't registered
CALL bridge('OTHER');
CALL weigh_pairs('OTHER', 2, '2 days');
CALL loaded('OTHER');
CALL weigh('OTHER-NEW', 'single', 'A-1', 9000, 5000, serial => 'OTHER1');
SELECT is(load('OTHER-NEW', 'OTHER'), 'OTHER: refused: a journal of OTHER that is not registered', 'a new file that isn''t registered is refused');
SELECT is(load('OTHER-NEW', 'OTHER', newest => true), 'OTHER: refused: a journal of OTHER that is not registered, or each of these entries was changed: load the whole export',
    '  also its newest entries');
CALL copy_book('OTHER', 'OTHER-COPY');
UPDATE record SET key = 'CHANGED' WHERE book = 'OTHER-COPY' AND number = 1;
CALL chain('OTHER-COPY');
SELECT is(load('OTHER-COPY', 'OTHER'), 'OTHER: refused: the journal of OTHER was replaced whole: none of its digests is one that is stored, and 1 of 4 entries differ in more, the first of them 1',
    'a journal with other digests throughout was replaced');
SELECT is(pg_temp.reasons('OTHER'), '{journal,newest,replaced}', 'each has its reason');
SELECT is(findings('OTHER'), '{refused,"not loaded",replaced}', '  and its finding');
CALL bridge('MIGRATED');
CALL weigh('MIGRATED', 'single', 'A-1', 9000, 5000, version => 1);
CALL loaded('MIGRATED');
CALL copy_book('MIGRATED', 'MIGRATED-2');
SELECT is(load('MIGRATED-2', 'MIGRATED'), format('MIGRATED: refused: a journal of MIGRATED that is not registered: its entries are those of journal %s with other digests; if it was brought over, register it as the follower',
    journal_of('MIGRATED')), 'a migrated journal must be registered as the follower');
CALL bridge('CHAINED');
CALL weigh('CHAINED', 'single', 'A-1', 9000, 5000);
CALL loaded('CHAINED');
UPDATE record SET previous = NULL WHERE book = 'CHAINED';
SELECT is(load('CHAINED'), 'CHAINED: refused: the column previous is missing, which this journal has', 'an export without the column of the previous digest is refused');

-- Numbers at the end of what is stored
CALL bridge('EDGE');
CALL weigh_pairs('EDGE', 2, '2 days');
CALL loaded('EDGE', last => 3);
CALL weigh('EDGE', 'single', 'A-1', 9000, 5000);
SELECT is(load('EDGE', newest => true, first => 5), 'EDGE: refused: the newest entries begin at 5, and what is stored ends at 3: load the whole export', 'newest entries that miss one number are refused');
SELECT is(load('EDGE', newest => true, first => 4), 'EDGE: records 2, added 2, findings 0, new 0', '  and those that follow are taken');
CALL weigh('EDGE-NEW', 'single', 'A-1', 9100, 5000, serial => 'EDGE1', number => 5);
SELECT is(load('EDGE-NEW', 'EDGE'), 'EDGE: refused: the journal of EDGE was replaced whole: none of its digests is one that is stored, and 1 of 1 entries differ in more, the first of them 5',
    'another entry with the last number is none of this journal');

-- Records that have no form of an entry
CREATE FUNCTION pg_temp.malformed(name text, field text, wanted text) RETURNS text LANGUAGE plpgsql AS $$
BEGIN
    CALL bridge(name);
    CALL weigh(name, 'single', 'A-1', 9000, 5000);
    EXECUTE format('UPDATE test.record SET %I = %s WHERE book = %L', field, wanted, name);
    CALL chain(name);
    RETURN load(name);
END $$;
SELECT alike(pg_temp.malformed('P1', 'plate', '''a-1'''), 'P1: refused: %"form"', 'a plate in small letters is refused');
SELECT alike(pg_temp.malformed('P2', 'plate', '''ABCDEFGHIJKLM'''), 'P2: refused: %"form"', 'a plate of 13 characters is refused');
SELECT alike(pg_temp.malformed('P3', 'key', '''a b'''), 'P3: refused: %"form"', 'a key with a blank is refused');
SELECT alike(pg_temp.malformed('P4', 'key', 'repeat(''k'', 33)'), 'P4: refused: %"form"', 'a key of 33 characters is refused');
SELECT alike(pg_temp.malformed('P5', 'kind', '''third'''), 'P5: refused: %', 'another kind is refused');
SELECT alike(pg_temp.malformed('P6', 'gross_kg', '0'), 'P6: refused: %"form"', 'a gross of zero is refused');
SELECT alike(pg_temp.malformed('P7', 'interval_kg', '3'), 'P7: refused: %"form"', 'an e of 3 kg is refused');
SELECT alike(pg_temp.malformed('P8', 'preset_kg', 'NULL'), 'P8: refused: %"weights_of_kind"', 'a Single without a preset tare is refused');
SELECT alike(pg_temp.malformed('P9', 'max_kg', '500001'), 'P9: refused: %"form"', 'a Max above 500 t is refused');
SELECT is(pg_temp.reasons('P1'), '{form}', 'such a load is refused because of its form');

-- Loads that the program `load` refuses itself
SELECT is(value_as('bridge_north', $$SELECT head_office.note_refusal('NORTH', 'cut', 'the export is cut off')$$), 'NORTH: refused: the export is cut off', 'load writes down what it refused');
SELECT is(pg_temp.last_refusal(), '(NORTH,bridge_north,cut)', '  with the login and the reason');
SELECT is(value_as('bridge_north', $$SELECT head_office.note_refusal('EAST', 'cut', 'the export is cut off')$$), 'EAST: refused: bridge_north hands nothing in for EAST', '  and only of its own bridge');
SELECT is(pg_temp.last_refusal(), '(EAST,bridge_north,login)', '  where the reason is the login');
SELECT is(value_as('bridge_north', $$SELECT head_office.note_refusal('NORTH', 'serial', 'false')$$), 'P0001: refused: serial is none of the reasons of load', 'it can''t give another reason');
SELECT is(value_as('bridge_north', format($$SELECT head_office.note_refusal('NORTH', 'form', %L)$$, E'\x1b[2J' || repeat('x', 600) || 'ü')), 'NORTH: refused: ?[2J' || repeat('x', 496),
    'what it says is bounded, and commands no terminal');
SELECT is(value_as('bridge_north', $$SELECT head_office.note_refusal(repeat('N', 40), 'cut', 'x')$$), repeat('N', 32) || ': refused: bridge_north hands nothing in for ' || repeat('N', 40), 'a name is bounded');

-- How much is written down: a hundred a day of each reason, login and bridge
CREATE FUNCTION pg_temp.note(name text, why text DEFAULT 'cut off', reason text DEFAULT 'cut') RETURNS bigint LANGUAGE plpgsql AS $$
BEGIN
    PERFORM head_office.note_refusal(name, reason, why);
    RETURN (SELECT count(*) FROM head_office.refusal WHERE bridge = name AND refusal.reason = note.reason);
END $$;
CALL bridge('FULL');
INSERT INTO head_office.refusal (bridge, reason, why, at) SELECT 'FULL', 'cut', 'old', now() - interval '1 day 1 second' FROM generate_series(1, 100);
SELECT is(pg_temp.note('FULL'), 101::bigint, 'refusals of before the last day don''t count');
INSERT INTO head_office.refusal (bridge, reason, why) SELECT 'FULL', 'cut', 'new' FROM generate_series(1, 98);
SELECT is(pg_temp.note('FULL'), 200::bigint, 'the hundredth of a day is written');
SELECT is(pg_temp.note('FULL', 'another text'), 200::bigint, 'and the next one is not');
SELECT is(pg_temp.note('FULL', 'another text', 'form'), 1::bigint, '  but one of another reason');
CALL bridge('ROOM');
SELECT is(pg_temp.note('ROOM'), 1::bigint, '  or of another bridge');
SELECT is(findings('FULL'), '{refused,refused}', 'each text is one finding');
INSERT INTO head_office.refusal (bridge, reason, why) SELECT 'FULL', 'form', 'full' FROM generate_series(1, 100);
INSERT INTO head_office.refusal (bridge, reason, why) SELECT 'FULL', 'listener', 'full' FROM generate_series(1, 100);
SELECT is(pg_temp.note('FULL', 'words of the loader', 'form'), 101::bigint, 'a loader can''t fill the findings with its words about a form');
SELECT is(pg_temp.note('FULL', 'words of the loader', 'listener'), 100::bigint, '  or a listener');
SELECT is(findings('FULL'), '{refused,refused}', '  so that there is no other finding');
INSERT INTO head_office.refusal (bridge, reason, why) SELECT 'FULL', 'serial', 'full' FROM generate_series(1, 100);
CALL weigh('FULL', 'single', 'A-1', 9000, 5000, serial => 'EAST1');
SELECT is(load('FULL'), 'FULL: refused: serial EAST1 is registered for EAST', 'a new finding is written even when the day is full');
SELECT is(findings('FULL'), '{refused,refused,refused}', '  because the loader didn''t choose its words');
SELECT is(load('FULL'), 'FULL: refused: serial EAST1 is registered for EAST', '  and the same once more');
SELECT is(findings('FULL'), '{refused,refused,refused}', '  is no other finding');
INSERT INTO head_office.refusal (bridge, reason, why) SELECT 'X' || n, 'cut', 'full' FROM generate_series(1, 100) n;
SELECT is(pg_temp.note('NOBODY'), 0::bigint, 'names that nobody registered share a hundred');

-- Of refusals that the next load makes up for, one finding of each reason is open.
CALL bridge('PASSING');
CREATE FUNCTION pg_temp.passes(why text) RETURNS text[] LANGUAGE plpgsql AS $$
BEGIN
    PERFORM head_office.note_refusal('PASSING', 'unreachable', why);
    RETURN findings('PASSING');
END $$;
SELECT is(pg_temp.passes('nobody listens'), '{"not loaded"}', 'a bridge that can''t be reached isn''t loaded');
SELECT is(pg_temp.passes('no answer'), '{"not loaded"}', '  and with other words it is the same finding');
SELECT is((SELECT count(*) FROM head_office.refusal WHERE bridge = 'PASSING'), 2::bigint, '  though each is written down');
SELECT * FROM finish();
ROLLBACK;
