-- False entries are set aside, and count nowhere. The bridge's own ones come in their place. A correction can be taken back.
BEGIN;
SET LOCAL search_path = test, tap;
SELECT plan(68);
SET LOCAL client_min_messages = error;
CALL bridge('NORTH');
INSERT INTO head_office.loader VALUES ('bridge_north', 'NORTH');
SET LOCAL client_min_messages = warning;
CREATE FUNCTION pg_temp.sums() RETURNS text LANGUAGE sql AS $$
SELECT rows($q$SELECT sum(tickets), sum(net_kg) FROM head_office.day_total WHERE bridge = 'NORTH'$q$) || rows('SELECT * FROM head_office.sum_difference') $$;
CREATE FUNCTION pg_temp.sites() RETURNS text LANGUAGE sql AS $$ SELECT rows($q$SELECT plate, number FROM head_office.on_site WHERE bridge = 'NORTH' ORDER BY 2$q$) $$;
CREATE FUNCTION pg_temp.numbers() RETURNS text LANGUAGE sql AS $$
SELECT string_agg(number::text, ' ' ORDER BY number) FROM head_office.entry WHERE journal = journal_of('NORTH') $$;
-- Drops the temporary tables that a check of the office leaves in this transaction
CREATE FUNCTION pg_temp.checked(whole boolean DEFAULT true) RETURNS text LANGUAGE plpgsql AS $$
DECLARE
    said text;
BEGIN
    SELECT string_agg(s, ' ') INTO said FROM head_office.check_office(whole) s;
    DROP TABLE found_receipt;
    RETURN said;
END $$;
CREATE FUNCTION pg_temp.corrects(call text, login text DEFAULT 'ada') RETURNS text LANGUAGE sql AS $$ SELECT value_as(login, 'SELECT head_office.' || call) $$;
CREATE FUNCTION pg_temp.aside(a bigint, z bigint, why text DEFAULT 'a stolen login', journal integer DEFAULT journal_of('NORTH')) RETURNS text LANGUAGE sql AS $$
SELECT pg_temp.corrects(format('set_aside(%s, %s, %s, %L)', journal, a, z, why)) $$;

-- The bridge has five entries. Somebody who stole its login adds four of his own.
CALL weigh_pairs('NORTH', 2, age => '5 hours');
CALL weigh('NORTH', 'first', 'P-9', 9000, age => '5 hours');
SELECT is(load('NORTH', fetched => present() - interval '4 hours'), 'NORTH: records 5, added 5, findings 0, new 0', 'a bridge has five entries');
SELECT is(pg_temp.sums(), '(2,40000)', '  with two tickets');
CALL copy_book('NORTH', 'FALSE');
CALL weigh('FALSE', 'second', 'P-9', 29000, age => '3 hours', serial => 'NORTH1');
CALL weigh('FALSE', 'first', 'X-1', 9000, age => '3 hours', serial => 'NORTH1');
CALL weigh('FALSE', 'second', 'X-1', 19000, age => '3 hours', serial => 'NORTH1');
CALL weigh('FALSE', 'single', 'X-2', 30000, 5000, age => '3 hours', serial => 'NORTH1', number => 4294967295);
SELECT alike(load('FALSE', 'NORTH', fetched => present() - interval '3 hours', by => 'bridge_north'), 'NORTH: records 9, added 4,%', 'false ones come under its login');
SELECT is(pg_temp.sums(), '(5,95000)', '  and count');
SELECT is(pg_temp.sites(), '', '  and let a vehicle drive off');

-- Its own entries come under these numbers, and aren't stored.
CALL weigh('NORTH', 'second', 'P-9', 39000, age => '2 hours');
CALL weigh('NORTH', 'first', 'P-8', 9000, age => '2 hours');
SELECT alike(load('NORTH', fetched => present() - interval '1 hour'), 'NORTH: records 7, added 0,%', 'the bridge''s own ones aren''t stored');
SELECT is(findings('NORTH'), '{unseen 9-4294967294,differs 6,differs 7,shorter 8-4294967295}', '  which is found');

-- A correction that is refused changes nothing.
SELECT is(pg_temp.corrects(format('set_aside(%s, 6, 8, ''x'')', journal_of('NORTH')), login), '42501: permission denied for function set_aside', 'a correction is the registrar''s, and not of ' || login)
    FROM unnest('{office,bridge_north}'::text[]) login;
SELECT is(pg_temp.corrects('take_back(1, ''x'')', 'office'), '42501: permission denied for function take_back', '  also to take one back');
SELECT is(pg_temp.aside(6, 8, ' '), '23514: new row for relation "correction" violates check constraint "why_says_something"', 'it says why');
SELECT is(pg_temp.aside(6, 8, repeat('x', 1001)), '23514: new row for relation "correction" violates check constraint "why_says_something"', '  in a thousand characters at most');
SELECT is(pg_temp.aside(10, 4294967294), format('P0001: refused: journal %s of NORTH has no entry from 10 to 4294967294', journal_of('NORTH')), 'there are entries with these numbers');
SELECT is(pg_temp.aside(8, 6), format('P0001: refused: journal %s of NORTH has no entry from 8 to 6', journal_of('NORTH')), '  in this order');
SELECT is(pg_temp.aside(6, 8, journal => 0), 'P0001: refused: there is no journal 0', 'there is such a journal');
SELECT is(pg_temp.numbers(), '1 2 3 4 5 6 7 8 4294967295', 'a correction that is refused changes nothing');

-- Set aside
SELECT is(pg_temp.checked(), 'office: 2 receipts with 9 entries checked, open faults 0', 'the office is in order');
SELECT alike(pg_temp.aside(6, 8), 'NORTH: correction %: 3 entries of journal % are set aside', 'false entries are set aside');
SELECT is(pg_temp.numbers(), '1 2 3 4 5 4294967295', '  and are no entries any more');
SELECT is(pg_temp.sums(), '(3,65000)', '  and don''t count');
SELECT is(rows($$SELECT tgname FROM pg_trigger WHERE tgrelid = 'head_office.entry'::regclass AND tgname = 'never_changed' AND tgenabled = 'O'$$), '(never_changed)', 'no other entry can be changed by now');
SELECT throws_ok('DELETE FROM head_office.entry', 'P0001', 'entry is never changed', '  or removed');
SELECT is(pg_temp.sites(), '(P-9,5)', '  and the vehicle is on site again');
SELECT is(rows('SELECT number, kind, plate, gross_kg, preset_kg, why, by FROM head_office.set_aside ORDER BY number'),
    '(6,second,P-9,29000,,"a stolen login",ada) (7,first,X-1,9000,,"a stolen login",ada) (8,second,X-1,19000,,"a stolen login",ada)', '  and stay as they came');
SELECT is(rows(format('SELECT s.number, s.digest = decode(r.digest, ''hex''), s.previous = decode(r.previous, ''hex''), s.key = r.key FROM head_office.set_aside_entry s JOIN record r ON r.number = s.number AND r.book = ''FALSE'' ORDER BY 1')),
    '(6,t,t,t) (7,t,t,t) (8,t,t,t)', '  with their digests');
SELECT is(rows('SELECT first, last, entries, takes_back, why, by FROM head_office.correction ORDER BY 1'), '(6,8,3,,"a stolen login",ada)', 'the correction says what, why and who');
SELECT alike(pg_temp.aside(4294967295, 4294967295), '%: 1 entries of journal %', 'one entry is set aside');
SELECT is(pg_temp.numbers(), '1 2 3 4 5', '  which ends the numbers where they were');
SELECT is(pg_temp.checked(), 'office: 2 receipts with 9 entries checked, open faults 0', 'nothing is missing that a load took in');
SELECT is(pg_temp.checked(false), 'office: 0 receipts with 0 entries checked, open faults 0', '  also at a check of what is new');

-- The bridge's own entries come in their place.
SELECT is(load('NORTH', fetched => present() - interval '30 minutes'), 'NORTH: records 7, added 2, findings 0, new 0', 'the bridge''s own ones are stored by the next load');
SELECT is(pg_temp.sums(), '(3,70000)', '  and count');
SELECT is(pg_temp.sites(), '(P-8,7)', '  and a vehicle drives off, and another comes');
SELECT is(pg_temp.checked(), 'office: 3 receipts with 11 entries checked, open faults 0', 'each receipt has the entries of its load');
SELECT alike(load('FALSE', 'NORTH', first => 1, last => 8, by => 'bridge_north'), 'NORTH: records 8, added 0,%', 'the false ones aren''t stored when they come again');
SELECT is((findings('NORTH'))[5:], '{differs 6,differs 7,set aside 8}', '  which is found: where an own one is stored, it differs');
SELECT is(pg_temp.sums(), '(3,70000)', '  and changes no sum');
SELECT is(pg_temp.checked(), 'office: 3 receipts with 11 entries checked, open faults 0', '  and no receipt');
CREATE FUNCTION pg_temp.correction(a bigint) RETURNS bigint LANGUAGE sql AS $$ SELECT max(correction) FROM head_office.correction WHERE first = a AND takes_back IS NULL $$;
SELECT is(pg_temp.corrects(format('take_back(%s, ''they were right'')', pg_temp.correction(6))), format('P0001: refused: other entries have the numbers of correction %s by now: set them aside first', pg_temp.correction(6)),
    'two entries don''t have one number');

-- Taken back
SELECT is(pg_temp.corrects('take_back(0, ''x'')'), 'P0001: refused: there is no correction 0 that sets entries aside', 'only a correction is taken back');
SELECT alike(pg_temp.corrects(format('take_back(%s, ''it was right'')', pg_temp.correction(4294967295))), 'NORTH: correction %: 1 entries of journal % count again', 'an entry that was right counts again');
SELECT is(pg_temp.sums(), '(4,95000)', '  in the sums');
SELECT is(pg_temp.numbers(), '1 2 3 4 5 6 7 4294967295', '  among the entries');
SELECT is(rows('SELECT number FROM head_office.set_aside ORDER BY 1'), '(6) (7) (8)', '  and isn''t set aside any more');
SELECT is(pg_temp.checked(), 'office: 3 receipts with 11 entries checked, open faults 0', '  in the receipt that had it');
SELECT is(pg_temp.corrects(format('take_back(%s, ''again'')', pg_temp.correction(4294967295))), format('P0001: refused: correction %s was taken back before', pg_temp.correction(4294967295)), '  once');
SELECT is(pg_temp.corrects(format('take_back(%s, ''x'')', (SELECT correction FROM head_office.correction WHERE takes_back IS NOT NULL))),
    format('P0001: refused: there is no correction %s that sets entries aside', (SELECT correction FROM head_office.correction WHERE takes_back IS NOT NULL)), '  and this isn''t taken back itself');
SELECT alike(pg_temp.aside(4294967295, 4294967295, 'it was false'), '%: 1 entries of journal %', 'it may be set aside again');
SELECT is(pg_temp.sums(), '(3,70000)', '  and doesn''t count');
SELECT is(pg_temp.checked(), 'office: 3 receipts with 11 entries checked, open faults 0', '  and belongs to its receipt');

-- The check of the office includes what is set aside.
ALTER TABLE head_office.set_aside_entry DROP CONSTRAINT digest_fits;
UPDATE head_office.set_aside_entry SET gross_kg = 1000 WHERE number = 7;
SELECT alike(pg_temp.checked(), '%: NORTH: entry 7 of journal % doesn''t fit its digest%', 'an entry that is set aside is checked');
DELETE FROM head_office.set_aside_entry WHERE number = 8;
SELECT alike(pg_temp.checked(), '%of the 4 entries that receipt 2 of journal % took in on %, 3 are here%', '  and must be there');

-- A first load after all was set aside
CALL bridge('ALL');
CALL weigh_pairs('ALL', 1);
CALL loaded('ALL');
SELECT alike(pg_temp.aside(1, 2, journal => journal_of('ALL')), 'ALL: correction %: 2 entries of journal %', 'all entries of a journal are set aside');
SELECT is(rows($$SELECT tickets FROM head_office.day_total WHERE bridge = 'ALL'$$), '', '  and no sum is left');
SELECT is(load('ALL'), 'ALL: records 2, added 0, findings 1, new 1', 'they come again');
SELECT is(findings('ALL'), '{set aside 1-2}', '  which is one finding');
SELECT alike(pg_temp.corrects(format('take_back(%s, ''they were right'')', (SELECT max(correction) FROM head_office.correction))), 'ALL: %', 'they count again');
SELECT is(load('ALL'), 'ALL: records 2, added 0, findings 0, new 0', '  and the next load finds nothing');
SELECT is(rows($$SELECT tickets FROM head_office.day_total WHERE bridge = 'ALL'$$), '(1)', '  and has the ticket');

-- The plates of a year are dropped of what is set aside, too.
SELECT extract(year FROM now() AT TIME ZONE 'UTC')::integer - 3 AS year \gset
CALL bridge('OLD');
UPDATE head_office.bridge SET plate_years = 2 WHERE bridge = 'OLD';
CALL weigh('OLD', 'single', 'A-1', 9000, 5000, at => make_timestamp(:year, 5, 1, 8, 0, 0));
CALL weigh('OLD', 'single', 'A-2', 9000, 5000, at => make_timestamp(:year, 5, 1, 9, 0, 0));
CALL weigh('OLD', 'single', 'A-3', 9000, 5000, at => make_timestamp(:year + 1, 5, 1, 9, 0, 0));
CALL loaded('OLD');
SELECT alike(pg_temp.aside(2, 3, journal => journal_of('OLD')), 'OLD: %', 'entries of two years are set aside');
SELECT count(*) FROM head_office.seal('OLD', :year) \g /dev/null
SELECT is(rows('SELECT number, key, plate, digest IS NULL, previous IS NULL, gross_kg FROM head_office.set_aside_entry JOIN head_office.journal USING (journal) WHERE bridge = ''OLD'' ORDER BY 1'),
    '(2,,,t,t,9000) (3,K3,A-3,f,f,9000)', 'the plate, key and digests of the year that is sealed are gone');
SELECT is(pg_temp.corrects(format('take_back(%s, ''x'')', (SELECT max(correction) FROM head_office.correction))), format('P0001: refused: plates of correction %s are dropped', (SELECT max(correction) FROM head_office.correction)),
    'such a correction isn''t taken back');
SELECT is(pg_temp.aside(1, 1, journal => journal_of('OLD')), format('P0001: refused: journal %s of OLD has no entry from 1 to 1', journal_of('OLD')), 'an entry whose plate is dropped isn''t set aside');
SELECT unalike(pg_temp.checked(), '%OLD%', 'the office finds no fault in it');

-- Nobody changes a correction, or stores an entry by one.
SELECT throws_ok('UPDATE head_office.correction SET why = ''x''', 'P0001', 'correction is never changed', 'a correction isn''t changed');
SELECT throws_ok('DELETE FROM head_office.correction', 'P0001', 'correction is never changed', '  or removed');
SELECT is(as_login('ada', $$INSERT INTO head_office.correction (journal, first, last, entries, why) VALUES (1, 1, 1, 1, 'x')$$), '42501', '  or made by hand');
SELECT is(as_login('ada', 'DELETE FROM head_office.set_aside_entry'), '42501', 'the registrar removes none of the entries');
SELECT * FROM finish();
ROLLBACK;
