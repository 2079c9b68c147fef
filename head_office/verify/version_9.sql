-- Refuses an office whose tables lack something that those of version 9 have: a column, an index or a constraint. The tables of years and logins come later, and
-- functions, views and rights are made by the files of functions/. The text is what a new office of version 9 has.
do $$
declare
    lacks text;
begin
    with wanted as (
        select split_part(line, ': ', 1) as its, string_to_table(split_part(line, ': ', 2), ', ') as has
        from string_to_table('
table acknowledgement: finding bigint not null, note text not null, at timestamp with time zone not null, by name C not null
table advice: what text not null, means text not null, to_do text not null, rank integer not null
table applied_file: name text not null, sha256 text not null, at timestamp with time zone not null
table bridge: bridge text C not null, zone text not null, retention_days integer not null, load_within interval not null, entry_within interval
table bridge: places integer, whole_within interval not null, plate_years integer, retired_at timestamp with time zone
table change: change bigint not null, at timestamp with time zone not null, by name C not null, of_table name C not null, was jsonb, is_now jsonb
table checked_receipt: journal integer not null, receipt integer not null
table correction: correction bigint not null, journal integer not null, first bigint not null, last bigint not null, entries bigint not null
table correction: takes_back bigint, why text not null, at timestamp with time zone not null, by name C not null
table day_sum: day date not null, bridge text C not null, tickets bigint not null, gross_kg bigint not null, net_kg bigint not null
table day_sum: brought_kg bigint not null, taken_kg bigint not null, preset_kg bigint not null
table ended_connection: ended bigint not null, at timestamp with time zone not null, login name C not null, pid integer not null, why text not null
table entry: journal integer not null, number bigint not null, key text C not null, kind text C not null, plate text C not null
table entry: moment timestamp with time zone not null, gross_kg integer, preset_kg integer, interval_kg integer not null, max_kg integer not null
table entry: serial text C not null, digest bytea not null, received_at timestamp with time zone not null, previous bytea, year integer not null
table entry_before: journal integer not null, number bigint not null, key text C not null, kind text C not null, plate text C not null
table entry_before: moment timestamp with time zone not null, gross_kg integer, preset_kg integer, interval_kg integer not null
table entry_before: max_kg integer not null, serial text C not null, digest bytea not null, received_at timestamp with time zone not null
table entry_before: previous bytea, year integer not null
table finding: finding bigint not null, journal integer not null, what text not null, first bigint not null, last bigint not null
table finding: record text not null, at timestamp with time zone not null
table follower: bridge text C not null, journal integer not null, former integer not null
table former_name: former text C not null, bridge text C not null, at timestamp with time zone not null, by name C not null
table guard_run: is_one boolean not null, at timestamp with time zone not null
table handed: number bigint not null, key text C not null, kind text C not null, plate text C not null, moment timestamp without time zone not null
table handed: gross_kg integer, preset_kg integer, interval_kg integer not null, max_kg integer not null, serial text C not null
table handed: digest text C not null, login name C not null, within xid8 not null, previous text C
table haulier: haulier text not null, plate text C not null, since date not null, until date not null
table instrument: serial text C not null, bridge text C not null, since timestamp with time zone not null
table instrument: until timestamp with time zone not null
table journal: journal integer not null, bridge text C not null, since timestamp with time zone not null, note text
table journal_year: journal integer not null, year integer not null, first bigint not null, last bigint not null, entries bigint not null
table journal_year: received_at timestamp with time zone not null, begins bigint not null, since integer not null, until integer not null
table load: load bigint not null, journal integer not null, at timestamp with time zone not null, by name C not null, records bigint not null
table load: last bigint, added bigint not null, findings bigint not null, new_findings bigint not null, is_newest boolean not null
table load: fetched_at timestamp with time zone, apart interval
table loader: login name C not null, bridge text C
table office_check: office_check bigint not null, at timestamp with time zone not null, is_whole boolean not null, receipts bigint not null
table office_check: entries bigint not null, faults bigint not null
table office_fault: office_fault bigint not null, at timestamp with time zone not null, what text not null, bridge text C, says text not null
table office_fault_note: office_fault bigint not null, note text not null, at timestamp with time zone not null, by name C not null
table open_entry: journal integer not null, plate text C not null, number bigint not null, since timestamp with time zone not null
table open_entry: gross_kg integer not null
table receipt: journal integer not null, receipt integer not null, load bigint not null, at timestamp with time zone not null
table receipt: numbers int8multirange not null, entries bigint not null, digest bytea not null
table refusal: refusal bigint not null, at timestamp with time zone not null, by name C not null, address inet, bridge text C not null
table refusal: reason text not null, why text not null, fetched_at timestamp with time zone
table restored: restored bigint not null, bridge text C not null, why text not null, at timestamp with time zone not null, by name C not null
table sealed_entry: journal integer not null, number bigint not null, year integer not null, kind text C not null
table sealed_entry: moment timestamp with time zone not null, gross_kg integer, preset_kg integer, interval_kg integer not null
table sealed_entry: max_kg integer not null, serial text C not null, partner bigint
table sealed_year: journal integer not null, year integer not null, first bigint not null, last bigint not null, entries bigint not null
table sealed_year: digest bytea not null, kept_digest bytea not null, at timestamp with time zone not null, by name C not null
table set_aside_entry: journal integer not null, number bigint not null, key text C, kind text C not null, plate text C
table set_aside_entry: moment timestamp with time zone not null, gross_kg integer, preset_kg integer, interval_kg integer not null
table set_aside_entry: max_kg integer not null, serial text C not null, digest bytea, received_at timestamp with time zone not null
table set_aside_entry: previous bytea, year integer not null, receipt integer, correction bigint not null
table standing: journal integer not null, fetched_at timestamp with time zone, whole_at timestamp with time zone, sealed bigint not null
table version: version integer not null, at timestamp with time zone not null
type at_hand: number bigint, key text C, kind text C, plate text C, moment timestamp without time zone, gross_kg integer, preset_kg integer
type at_hand: interval_kg integer, max_kg integer, serial text C, digest text C, previous text C
type taking: bridge text, days integer, places integer, is_newest boolean, fetched timestamp with time zone, lowest bigint, highest bigint
type taking: journal integer, sealed bigint, stored bigint, before bigint, before_at timestamp with time zone, is_former boolean
type taking: fetched_before timestamp with time zone, is_first boolean, since integer, until integer
indexes of acknowledgement: acknowledgement_pkey unique
indexes of advice: advice_pkey unique
indexes of applied_file: applied_file_pkey unique
indexes of bridge: bridge_pkey unique
indexes of change: change_pkey unique
indexes of checked_receipt: checked_receipt_pkey unique
indexes of correction: correction_pkey unique, taken_back_once unique
indexes of day_sum: day_sum_pkey unique
indexes of ended_connection: ended_connection_by_login, ended_connection_pkey unique
indexes of entry: entry_by_key, entry_by_moment, entry_by_plate
indexes of entry_before: entry_before_by_key, entry_before_by_moment, entry_before_by_plate, entry_before_pkey unique
indexes of finding: finding_by_time, finding_once unique, finding_pkey unique
indexes of follower: follower_former_key unique, follower_pkey unique
indexes of former_name: former_name_pkey unique
indexes of guard_run: guard_run_pkey unique
indexes of haulier: haulier_pkey unique
indexes of instrument: instrument_pkey unique
indexes of journal: journal_by_bridge, journal_of_bridge unique, journal_pkey unique
indexes of journal_year: journal_year_by_first, journal_year_pkey unique
indexes of load: load_by_journal, load_pkey unique
indexes of loader: loader_login_bridge_key unique
indexes of office_check: office_check_pkey unique
indexes of office_fault: office_fault_by_time, office_fault_pkey unique
indexes of office_fault_note: office_fault_note_pkey unique
indexes of open_entry: open_entry_pkey unique
indexes of receipt: receipt_pkey unique
indexes of refusal: refusal_by_login, refusal_by_time, refusal_pkey unique
indexes of restored: restored_pkey unique
indexes of sealed_entry: sealed_entry_pkey unique
indexes of sealed_year: sealed_year_pkey unique
indexes of set_aside_entry: set_aside_entry_pkey unique
indexes of standing: standing_pkey unique
indexes of version: version_pkey unique
constraints of acknowledgement: acknowledgement_finding_fkey f, acknowledgement_pkey p, note_says_something c
constraints of advice: advice_pkey p
constraints of applied_file: applied_file_pkey p, form_of_sha256 c
constraints of bridge: bridge_bridge_check c, bridge_entry_within_check c, bridge_load_within_check c, bridge_pkey p, bridge_retention_days_check c
constraints of bridge: bridge_zone_check c, places_of_a_journal c, plate_years_is_positive c, whole_within_is_positive c
constraints of change: change_pkey p
constraints of checked_receipt: checked_receipt_journal_fkey f, checked_receipt_pkey p
constraints of correction: correction_journal_fkey f, correction_pkey p, taken_back_once u, takes_back_a_correction f, why_says_something c
constraints of day_sum: day_sum_bridge_fkey f, day_sum_pkey p
constraints of ended_connection: ended_connection_pkey p
constraints of entry: digest_fits c, form c, form_of_previous c, weights_of_kind c, whole_second c
constraints of entry_before: digest_fits c, entry_before_pkey p, form c, form_of_previous c, of_year c, weights_of_kind c, whole_second c
constraints of finding: finding_journal_fkey f, finding_pkey p, finding_what_fkey f
constraints of follower: comes_after c, follower_former_bridge_fkey f, follower_former_key u, follower_journal_bridge_fkey f, follower_pkey p
constraints of former_name: former_name_bridge_fkey f, former_name_pkey p, is_another_name c
constraints of guard_run: guard_run_pkey p, one_row c
constraints of handed: handed_moment_check c
constraints of haulier: begins_before_its_end c, form_of_haulier c, haulier_pkey p
constraints of instrument: begins_before_its_end c, instrument_bridge_fkey f, instrument_pkey p, instrument_serial_check c
constraints of journal: journal_bridge_fkey f, journal_of_bridge u, journal_pkey p
constraints of journal_year: journal_year_journal_fkey f, journal_year_pkey p
constraints of load: load_journal_fkey f, load_pkey p
constraints of loader: loader_bridge_fkey f, loader_login_bridge_key u
constraints of office_check: office_check_pkey p
constraints of office_fault: kind_of_fault c, office_fault_pkey p
constraints of office_fault_note: office_fault_note_note_check c, office_fault_note_office_fault_fkey f, office_fault_note_pkey p
constraints of open_entry: open_entry_journal_fkey f, open_entry_pkey p
constraints of receipt: counts_from_one c, length_of_digest c, receipt_journal_fkey f, receipt_load_fkey f, receipt_pkey p
constraints of refusal: refusal_pkey p
constraints of restored: restored_bridge_fkey f, restored_pkey p, restored_why_check c
constraints of sealed_entry: sealed_entry_journal_fkey f, sealed_entry_pkey p
constraints of sealed_year: sealed_year_journal_fkey f, sealed_year_pkey p
constraints of set_aside_entry: digest_fits c, set_aside_entry_correction_fkey f, set_aside_entry_pkey p
constraints of standing: standing_journal_fkey f, standing_pkey p
constraints of version: version_pkey p
', E'\n') line where line <> ''
    ), found as (
        select case c.relkind when 'c' then 'type ' else 'table ' end || c.relname as its, concat_ws(' ', a.attname, format_type(a.atttypid, a.atttypmod),
            case when l.collname = 'C' then 'C' end, case when a.attnotnull then 'not null' end) as has
        from pg_class c join pg_attribute a on a.attrelid = c.oid and a.attnum > 0 and not a.attisdropped left join pg_collation l on l.oid = a.attcollation
        where c.relnamespace = 'head_office'::regnamespace
        union all
        select 'indexes of ' || t.relname, concat_ws(' ', c.relname, case when i.indisunique then 'unique' end, case when not i.indisvalid then 'not valid' end)
        from pg_index i join pg_class c on c.oid = i.indexrelid join pg_class t on t.oid = i.indrelid where t.relnamespace = 'head_office'::regnamespace
        union all
        select 'constraints of ' || t.relname, concat_ws(' ', n.conname, n.contype, case when not n.convalidated then 'not valid' end)
        from pg_constraint n join pg_class t on t.oid = n.conrelid where t.relnamespace = 'head_office'::regnamespace
    )
    select string_agg(format('%s lacks %s', its, has), '; ') into lacks
    from (select its, has from wanted except select its, has from found order by 1, 2 limit 5) w;
    if lacks is not null then
        raise exception '%: nothing was changed, because the tables aren''t those of version 9: %; somebody changed them by hand: restore what is missing, and run upgrade again',
            current_database(), lacks;
    end if;
end $$;
