-- The rights of each role on every table, column, function and schema. The lists were written by hand from docs/head_office.md.
BEGIN;
SET LOCAL search_path = test, tap;
SELECT plan(46);

-- The rights of a role on the tables and views, such as `bridge: INSERT SELECT`, without `entry_2026` and the other tables of years.
CREATE FUNCTION pg_temp.table_rights(role text, of_right text) RETURNS text LANGUAGE sql AS $$
SELECT coalesce(string_agg(relname, ' ' ORDER BY relname COLLATE "C"), '') FROM pg_class
WHERE relnamespace = 'head_office'::regnamespace AND relkind IN ('r', 'p', 'v') AND relname !~ '^entry_([0-9]+|before|misdated)$' AND has_table_privilege(role, oid, of_right) $$;
-- Those on columns, of tables of which not all columns are granted
CREATE FUNCTION pg_temp.column_rights(role text, of_right text) RETURNS text LANGUAGE sql AS $$
SELECT coalesce(string_agg(its, '; ' ORDER BY its COLLATE "C"), '') FROM (
    SELECT relname || ': ' || string_agg(attname, ' ' ORDER BY attname COLLATE "C") AS its FROM pg_class c JOIN pg_attribute a ON attrelid = c.oid AND attnum > 0 AND NOT attisdropped
    WHERE relnamespace = 'head_office'::regnamespace AND relkind IN ('r', 'p', 'v') AND NOT has_table_privilege(role, c.oid, of_right)
        AND has_column_privilege(role, c.oid, attnum, of_right) GROUP BY relname) c $$;
CREATE FUNCTION pg_temp.function_rights(role text) RETURNS text LANGUAGE sql AS $$
SELECT coalesce(string_agg(DISTINCT proname, ' ' ORDER BY proname), '') FROM pg_proc WHERE pronamespace = 'head_office'::regnamespace AND has_function_privilege(role, oid, 'EXECUTE') $$;

-- The loader: writes into `handed`, reads nothing, and calls six functions.
SELECT is(pg_temp.table_rights('bridge_north', 'SELECT'), '', 'a loader reads no table and no view');
SELECT is(pg_temp.column_rights('bridge_north', 'SELECT'), '', '  and no column');
SELECT is(pg_temp.table_rights('bridge_north', 'INSERT'), '', 'a loader writes no whole row');
SELECT is(pg_temp.column_rights('bridge_north', 'INSERT'),
    'handed: digest gross_kg interval_kg key kind max_kg moment number plate preset_kg previous serial',
    '  and of a record all, but not whose it is');
SELECT is(pg_temp.table_rights('bridge_north', it) || pg_temp.column_rights('bridge_north', it), '', 'a loader has no right ' || it) FROM unnest('{UPDATE,REFERENCES}'::text[]) it;
SELECT is(pg_temp.table_rights('bridge_north', it), '', 'a loader has no right ' || it) FROM unnest('{DELETE,TRUNCATE,TRIGGER}'::text[]) it;
SELECT is(pg_temp.function_rights('bridge_north'), 'begin_load note_refusal receipt_of_load refuse_receipt take_in wants_whole', 'a loader calls six functions');

-- The reader: reads everything but what is given to a load, and writes nothing.
SELECT is(pg_temp.table_rights('office', it) || pg_temp.column_rights('office', it), '', 'a reader has no right ' || it) FROM unnest('{INSERT,UPDATE,REFERENCES}'::text[]) it;
SELECT is(pg_temp.table_rights('office', it), '', 'a reader has no right ' || it) FROM unnest('{DELETE,TRUNCATE,TRIGGER}'::text[]) it;
SELECT is((SELECT coalesce(string_agg(relname, ' ' ORDER BY relname), '') FROM pg_class WHERE relnamespace = 'head_office'::regnamespace AND relkind IN ('r', 'p', 'v')
    AND NOT has_table_privilege('office', oid, 'SELECT')), 'handed handed_by_keeper', 'a reader reads all tables and views, but not what a loader gives');
SELECT is(pg_temp.function_rights('office'), 'check_office digest_of end_stuck_loads html is_of_age kept_digest_of line_of short thousands',
    'a reader calls what the views need, what ends connections of loaders, and the check');

-- The registrar
SELECT is((SELECT coalesce(string_agg(relname, ' ' ORDER BY relname), '') FROM pg_class WHERE relnamespace = 'head_office'::regnamespace AND relkind IN ('r', 'p', 'v')
    AND NOT has_table_privilege('ada', oid, 'SELECT')), 'handed handed_by_keeper', 'the registrar reads as much as a reader');
SELECT is(pg_temp.table_rights('ada', 'INSERT'), 'bridge follower haulier instrument journal loader', 'the registrar registers');
SELECT is(pg_temp.column_rights('ada', 'INSERT'), 'acknowledgement: finding note; office_fault_note: note office_fault; restored: bridge why', '  and acknowledges findings and faults, and names a restored office, under her own name');
SELECT is(pg_temp.table_rights('ada', 'UPDATE'), '', 'the registrar changes no whole row');
SELECT is(pg_temp.column_rights('ada', 'UPDATE'), 'bridge: bridge entry_within load_within places plate_years retention_days retired_at whole_within zone; haulier: until; instrument: until; journal: note',
    '  and of a bridge what is registered, and until when an instrument or a plate is whose');
SELECT is(pg_temp.table_rights('ada', 'DELETE'), 'former_name haulier journal loader', 'the registrar removes loaders, plates of hauliers, former names, and journals without entries');
SELECT is(pg_temp.table_rights('ada', it), '', 'the registrar has no right ' || it) FROM unnest('{TRUNCATE,TRIGGER,REFERENCES}'::text[]) it;
SELECT is(pg_temp.function_rights('ada'), 'digest_of html is_of_age kept_digest_of line_of seal set_aside short take_back thousands', 'the registrar calls what a reader does, seal, and the two that correct');

SELECT is(rows($$SELECT rolname, relname FROM pg_roles, pg_class WHERE rolname IN ('ada', 'bridge_north', 'office') AND relkind = 'S'
    AND relnamespace = 'head_office'::regnamespace AND has_sequence_privilege(rolname, pg_class.oid, 'USAGE, SELECT, UPDATE')$$), '', 'nobody who logs in counts a sequence up');

-- Everybody else, and what lies around
CREATE ROLE stranger LOGIN;
SELECT is(pg_temp.table_rights('stranger', it) || pg_temp.column_rights('stranger', it), '', 'another login has no right ' || it) FROM unnest('{SELECT,INSERT,UPDATE}'::text[]) it;
SELECT is(pg_temp.function_rights('stranger'), '', 'another login calls no function');
SELECT is(has_schema_privilege('stranger', 'head_office', 'USAGE'), false, '  and doesn''t reach the schema');
SELECT is((SELECT coalesce(string_agg(rolname, ' '), '') FROM pg_roles WHERE rolname IN ('ada', 'bridge_north', 'office', 'stranger', 'head_office_storer')
    AND has_schema_privilege(rolname, 'head_office', 'CREATE') AND rolname <> 'head_office_storer'), '', 'nobody who logs in creates anything in the schema');
SELECT is(rows($$SELECT rolname FROM pg_roles WHERE rolname IN ('ada', 'bridge_north', 'office', 'stranger') AND has_database_privilege(rolname, current_database(), 'TEMPORARY')$$), '',
    'nobody who logs in creates temporary tables');
SELECT is(rows($$SELECT rolname FROM pg_roles WHERE rolname IN ('ada', 'bridge_north', 'office', 'stranger') AND has_database_privilege(rolname, current_database(), 'CONNECT') ORDER BY rolname COLLATE "C"$$),
    '(ada) (bridge_north) (office)', 'only logins of the three roles connect to the database');
SELECT is(rows($$SELECT proname FROM pg_proc WHERE proname IN ('lo_creat', 'lo_create', 'lo_from_bytea') AND has_function_privilege('bridge_north', oid, 'EXECUTE')$$), '',
    'a loader fills the disk with no large object');

-- The roles that store and that end connections have no members, and nobody logs in as one of them or as the owner.
SELECT is(rows($$SELECT member::regrole FROM pg_auth_members WHERE roleid IN ('head_office_storer'::regrole, 'head_office_guard'::regrole)$$), '',
    'nobody is a member of the role that stores, or of the one that ends connections');
SELECT is(rows($$SELECT rolname FROM pg_roles WHERE rolname ~ '^head_office' AND (rolcanlogin OR rolsuper OR rolcreaterole OR rolcreatedb OR rolbypassrls)$$), '',
    'no role of the head office logs in or has a right of the cluster');
SELECT is(rows($$SELECT DISTINCT member::regrole::text FROM pg_auth_members WHERE roleid = 'head_office'::regrole AND member <> current_user::regrole$$), '(head_office_guard) (head_office_storer)',
    'only the role that stores and the one that ends connections are members of the owner');
SELECT is(rows($$SELECT proname, pg_get_userbyid(proowner) FROM pg_proc WHERE pronamespace = 'head_office'::regnamespace AND pg_get_userbyid(proowner) <> 'head_office'$$),
    '(take_in,head_office_storer) (take_back,head_office_storer) (end_stuck_loads,head_office_guard) (who_stops,head_office_guard)',
    'take_in and take_back run as the role that stores, two as the one that ends connections, and all others are the owner''s');
SELECT is(rows($$SELECT proname FROM pg_proc WHERE pronamespace = 'head_office'::regnamespace AND prosecdef
    AND NOT coalesce(proconfig, '{}') @> '{"search_path=head_office, pg_temp"}' ORDER BY proname$$), '',
    'each function that runs with other rights looks for names in the schema only');
SELECT is((SELECT string_agg(proname, ' ' ORDER BY proname) FROM pg_proc WHERE pronamespace = 'head_office'::regnamespace AND prosecdef),
    'begin_load check_office end_stuck_loads follow_bridge follow_follower follow_journal follow_loader follow_name keep_handed_small keep_names_apart keep_record_short make_landing make_year '
    'note_change note_refusal one_bridge_at_a_time plate_once '
    'rebuild_sums receipt_of_load refuse_receipt seal set_aside take_back take_in wants_whole warn_of_login who_stops',
    '  and there are twenty-seven of them');
SELECT is((SELECT proconfig FROM pg_proc WHERE proname = 'take_in' AND pronamespace = 'head_office'::regnamespace) @> '{lock_timeout=60s}', true, 'a load waits for another for a minute at most');
SELECT is((SELECT proconfig FROM pg_proc WHERE proname = 'seal' AND pronamespace = 'head_office'::regnamespace) @> '{lock_timeout=60s}', true, '  and so does seal');
SELECT * FROM finish();
ROLLBACK;
