-- A journal that was migrated follows the former one: each ticket counts once, and what differs is found.
BEGIN;
SET LOCAL search_path = test, tap;
SELECT plan(40);
CREATE FUNCTION pg_temp.sums_of(name text) RETURNS text LANGUAGE sql AS $$
SELECT rows(format('SELECT sum(tickets), sum(net_kg) FROM head_office.day_total WHERE bridge = %L', name)) $$;
CREATE FUNCTION pg_temp.tickets_of(name text) RETURNS text LANGUAGE sql AS $$
SELECT rows(format('SELECT journal - (SELECT min(journal) FROM head_office.journal WHERE bridge = %1$L), ticket FROM head_office.ticket WHERE bridge = %1$L ORDER BY 1, 2', name)) $$;

-- Three pairs, of 20,000 kg each, in a journal of version 1. The follower has them with other digests, and a fourth one.
CREATE PROCEDURE pg_temp.begin_bridge(name text) LANGUAGE plpgsql AS $$
BEGIN
    CALL bridge(name);
    FOR turn IN 1 .. 3 LOOP
        CALL weigh(name, 'first', 'P-' || turn, 10000, age => '2 days', version => 1);
        CALL weigh(name, 'second', 'P-' || turn, 30000, age => '2 days', version => 1);
    END LOOP;
    CALL copy_book(name, name || '-2');
    CALL weigh(name || '-2', 'first', 'P-4', 10000, age => '1 day', serial => serial_of(name));
    CALL weigh(name || '-2', 'second', 'P-4', 30000, age => '1 day', serial => serial_of(name));
END $$;

CALL pg_temp.begin_bridge('NORTH');
CALL loaded('NORTH');
SELECT is(pg_temp.sums_of('NORTH'), '(3,60000)', 'the former journal has three tickets');
CALL new_file('NORTH', follows => true);
SELECT is(pg_temp.sums_of('NORTH'), '(3,60000)', 'registering a follower changes no sum');
CALL loaded('NORTH-2', 'NORTH');
SELECT is(pg_temp.tickets_of('NORTH'), '(0,2) (0,4) (0,6) (1,8)', 'of a follower only those tickets count that come after the former journal');
SELECT is(pg_temp.sums_of('NORTH'), '(4,80000)', '  also in the sums');
SELECT is((SELECT sum(tickets) FROM head_office.computed_day_total WHERE bridge = 'NORTH'), 4::numeric, '  also in those that are computed');
SELECT is((SELECT number FROM head_office.received_before WHERE journal = journal_of('NORTH')), 6::bigint, 'six numbers were received before');
SELECT is((SELECT count(*) FROM head_office.ticket_of_journal WHERE bridge = 'NORTH'), 7::bigint, 'both journals have their own tickets');
SELECT is(rows('SELECT * FROM head_office.follower_difference'), '', 'a journal that was migrated as it was has no difference');
SELECT is(rows('SELECT * FROM head_office.sum_difference'), '', 'and the sums are those of the entries');

-- Without being registered as the follower
CALL pg_temp.begin_bridge('TWICE');
CALL loaded('TWICE');
CALL new_file('TWICE');
SELECT is(load('TWICE-2', 'TWICE'), 'TWICE: records 8, added 8, findings 1, new 1', 'a migrated journal that is registered as a new file only');
SELECT is(findings('TWICE'), '{no follower 1}', '  is a finding');
SELECT is(pg_temp.sums_of('TWICE'), '(7,140000)', '  and its tickets count twice');
INSERT INTO head_office.follower SELECT 'TWICE', max(journal), min(journal) FROM head_office.journal WHERE bridge = 'TWICE';
SELECT is(pg_temp.sums_of('TWICE'), '(4,80000)', 'once it is registered as the follower, they count once');
SELECT is(pg_temp.tickets_of('TWICE'), '(0,2) (0,4) (0,6) (1,8)', '  in the tickets as well');

-- The end of the former journal comes after the follower
CALL pg_temp.begin_bridge('AFTER');
CALL loaded('AFTER', last => 4);
CALL new_file('AFTER', follows => true);
CALL loaded('AFTER-2', 'AFTER');
SELECT is(pg_temp.tickets_of('AFTER'), '(0,2) (0,4) (1,6) (1,8)', 'a ticket that the former journal doesn''t have yet is the follower''s');
CALL loaded('AFTER');
SELECT is(pg_temp.tickets_of('AFTER'), '(0,2) (0,4) (0,6) (1,8)', '  and is the former journal''s, once that has it');
SELECT is(pg_temp.sums_of('AFTER'), '(4,80000)', '  and counts once');
SELECT is(rows('SELECT * FROM head_office.sum_difference'), '', '  as the entries say');

-- A former journal of two years
CALL bridge('LONG', 3650);
CALL weigh('LONG', 'single', 'A-1', 9000, 5000, age => '400 days', version => 1);
CALL weigh('LONG', 'single', 'A-1', 9000, 5000, age => '2 days', version => 1);
CALL loaded('LONG');
CALL new_file('LONG', follows => true);
CALL copy_book('LONG', 'LONG-2');
CALL weigh('LONG-2', 'single', 'A-1', 9000, 5000, serial => 'LONG1');
CALL loaded('LONG-2', 'LONG');
SELECT is(pg_temp.tickets_of('LONG'), '(0,1) (0,2) (1,3)', 'a former journal of two years has its tickets, and the follower the newer one');
SELECT is(pg_temp.sums_of('LONG'), '(3,12000)', '  also in the sums');

-- Changed, left out, put in
CALL pg_temp.begin_bridge('ALTERED');
CALL loaded('ALTERED');
CALL new_file('ALTERED', follows => true);
UPDATE record SET gross_kg = 28000 WHERE book = 'ALTERED-2' AND number = 4;
CALL chain('ALTERED-2', 4);
SELECT is(load('ALTERED-2', 'ALTERED'), 'ALTERED: records 8, added 8, findings 1, new 1', 'a weight was changed by the migration');
SELECT is(findings('ALTERED'), '{altered 4}', '  which is a finding');
SELECT is(rows($$SELECT number, what, split_part(record, ',', 6), split_part(former_record, ',', 6) FROM head_office.follower_difference$$),
    '(4,altered,28000,30000)', '  with both weights');
SELECT is(rows($$SELECT split_part(stored, ',', 6) FROM head_office.finding_beside_stored WHERE bridge = 'ALTERED'$$), '(30000)',
    '  shown next to what is stored of the former journal');
SELECT is(pg_temp.sums_of('ALTERED'), '(4,80000)', '  and the ticket counts as it was received first');

CALL pg_temp.begin_bridge('LEFTOUT');
CALL loaded('LEFTOUT');
CALL new_file('LEFTOUT', follows => true);
DELETE FROM record WHERE book = 'LEFTOUT-2' AND number IN (3, 4);
SELECT alike(load('LEFTOUT-2', 'LEFTOUT'), 'LEFTOUT: records 6, added 6,%', 'two entries were left out by the migration');
SELECT ok('{left out 3-4}' <@ findings('LEFTOUT'), '  which is one finding') ;
SELECT is(rows($$SELECT number, what FROM head_office.follower_difference WHERE bridge = 'LEFTOUT' ORDER BY number$$), '(3,"left out") (4,"left out")',
    '  and two rows of the view');

CALL pg_temp.begin_bridge('PUTIN');
SELECT alike(load('PUTIN', without => '{3,4}'), 'PUTIN: records 4, added 4,%', 'the former journal lacks two entries');
CALL new_file('PUTIN', follows => true);
SELECT alike(load('PUTIN-2', 'PUTIN'), 'PUTIN: records 8, added 8,%', '  that the follower has');
SELECT is(rows($$SELECT number, what FROM head_office.follower_difference WHERE bridge = 'PUTIN' ORDER BY number$$), '(3,"put in") (4,"put in")',
    '  and are put in');

-- The former journal purged entries before the follower was loaded.
CALL bridge('PURGED', 30);
CALL weigh('PURGED', 'single', 'A-1', 9000, 5000, age => '40 days', version => 1);
CALL weigh('PURGED', 'single', 'A-1', 9000, 5000, age => '40 days', version => 1);
CALL weigh('PURGED', 'single', 'A-1', 9000, 5000, age => '2 days', version => 1);
CALL loaded('PURGED');
CALL new_file('PURGED', follows => true);
CALL copy_book('PURGED', 'PURGED-2');
DELETE FROM record WHERE book = 'PURGED-2' AND number < 3;
CALL chain('PURGED-2');
SELECT is(load('PURGED-2', 'PURGED'), 'PURGED: records 1, added 1, findings 0, new 0', 'entries past retention needn''t be migrated');
SELECT is(rows($$SELECT * FROM head_office.follower_difference WHERE bridge = 'PURGED'$$), '', '  and are no difference');
CALL bridge('EARLY', 30);
CALL weigh('EARLY', 'single', 'A-1', 9000, 5000, age => '20 days', version => 1);
CALL weigh('EARLY', 'single', 'A-1', 9000, 5000, age => '2 days', version => 1);
CALL loaded('EARLY');
CALL new_file('EARLY', follows => true);
CALL copy_book('EARLY', 'EARLY-2');
DELETE FROM record WHERE book = 'EARLY-2' AND number = 1;
CALL chain('EARLY-2');
SELECT is(load('EARLY-2', 'EARLY'), 'EARLY: records 1, added 1, findings 1, new 1', 'an entry that had to be kept must be migrated');
SELECT is(findings('EARLY'), '{left out 1}', '  or it is left out');

-- The first day on which an entry needn't be migrated: the 31st after it
CREATE FUNCTION pg_temp.migrated_without(name text, age interval) RETURNS text[] LANGUAGE plpgsql AS $$
BEGIN
    CALL bridge(name, 30);
    CALL weigh(name, 'single', 'A-1', 9000, 5000, age => age, version => 1);
    CALL weigh(name, 'single', 'A-1', 9000, 5000, age => '1 second', version => 1);
    CALL loaded(name);
    CALL new_file(name, follows => true);
    CALL copy_book(name, name || '-2');
    DELETE FROM record WHERE book = name || '-2' AND number = 1;
    CALL chain(name || '-2');
    PERFORM load(name || '-2', name);
    RETURN findings(name);
END $$;
SELECT is(pg_temp.migrated_without('DAY30', '30 days'), '{left out 1}', 'an entry of the 30th day before is left out');
SELECT is(pg_temp.migrated_without('DAY31', '31 days'), '{}', '  and one of the 31st day is not');

-- A journal follows one older journal of its bridge.
SELECT throws_ok($$INSERT INTO head_office.follower VALUES ('EARLY', (SELECT min(journal) FROM head_office.journal WHERE bridge = 'EARLY'), journal_of('EARLY'))$$,
    '23514', NULL, 'a journal follows only an older one');
SELECT throws_ok($$INSERT INTO head_office.follower VALUES ('NORTH', journal_of('EARLY'), (SELECT min(journal) FROM head_office.journal WHERE bridge = 'NORTH'))$$,
    '23505', NULL, '  and only one');
SELECT throws_ok($$UPDATE head_office.follower SET former = 1$$, 'P0001', 'follower is never changed', '  and for good');
SELECT * FROM finish();
ROLLBACK;
