-- plpgsql_check finds nothing in any function, except what `allowed` lists.
BEGIN;
SET LOCAL client_min_messages = error;
CREATE EXTENSION IF NOT EXISTS plpgsql_check SCHEMA tap;
SET LOCAL search_path = test, tap;

CREATE TEMPORARY TABLE allowed (name text, finding text);
-- It ends with `refuse`, which returns to nobody.
INSERT INTO allowed VALUES ('journal_of', '("warning extra",2F005,"control reached end of function without RETURN")');

-- The temporary tables of a load, of a check and of `seal` are there only while these run. A first load and a second one leave all of them.
CALL bridge('NORTH');
CALL weigh('NORTH', 'single', 'A-1', 9000, 5000);
CALL loaded('NORTH');
CALL give('NORTH');
SELECT count(*) FROM head_office.take_in('NORTH') \g /dev/null
SELECT count(*) FROM head_office.check_office(false) \g /dev/null
CREATE TEMPORARY TABLE sealing AS SELECT e.*, NULL::bigint AS partner, false AS is_open FROM head_office.entry e LIMIT 0;

CREATE TEMPORARY TABLE code AS
SELECT p.oid, p.proname, p.prorettype = 'trigger'::regtype AS is_trigger, (SELECT min(tgrelid::oid) FROM pg_trigger t WHERE t.tgfoid = p.oid) AS relation
FROM pg_proc p JOIN pg_language l ON l.oid = p.prolang WHERE p.pronamespace = 'head_office'::regnamespace AND l.lanname = 'plpgsql';
SELECT plan(count(*)::integer + 2) FROM code;
SELECT cmp_ok(count(*), '>=', 30::bigint, 'the head office has at least thirty functions in plpgsql') FROM code;
SELECT is(rows('SELECT proname FROM code WHERE is_trigger AND relation IS NULL'), '', 'each function for a trigger has one');
-- Functions that set no path of their own run with that of take_in.
SET LOCAL search_path = head_office, tap, test;
SELECT is(rows(format('SELECT level, sqlstate, message FROM plpgsql_check_function_tb(%s, %s, extra_warnings => true)', oid, coalesce(relation, 0))),
    coalesce((SELECT string_agg(finding, ' ') FROM allowed WHERE name = proname), ''), format('nothing is wrong of %s', proname)) FROM code ORDER BY proname;
SELECT * FROM finish();
ROLLBACK;
