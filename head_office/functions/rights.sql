grant usage on schema head_office to head_office_registrar, head_office_loader, head_office_reader;
grant select on all tables in schema head_office to head_office_registrar, head_office_reader;
do $$
declare
    its regclass;
begin
    -- nobody reads these records
    for its in select 'handed'::regclass union all select inhrelid::regclass from pg_inherits where inhparent = 'handed'::regclass loop
        execute format('revoke select on %s from head_office_registrar, head_office_reader', its);
    end loop;
end $$;
grant insert on bridge, instrument, journal, loader, follower, haulier to head_office_registrar;
grant update (bridge, zone, retention_days, load_within, entry_within, places, whole_within, plate_years, retired_at) on bridge to head_office_registrar;
-- an instrument or plate that was another's before belongs to this one from a moment on
grant update (until) on instrument, haulier to head_office_registrar;
grant update (note) on journal to head_office_registrar;
-- a journal that was registered by mistake: nothing hangs on it yet, or it stays
grant delete on loader, journal, haulier, former_name to head_office_registrar;
grant insert (finding, note) on acknowledgement to head_office_registrar;
grant insert (office_fault, note) on office_fault_note to head_office_registrar;
grant insert (bridge, why) on restored to head_office_registrar;
grant execute on function seal(text, integer), set_aside(integer, bigint, bigint, text), take_back(bigint, text) to head_office_registrar;
grant insert (number, key, kind, plate, moment, gross_kg, preset_kg, interval_kg, max_kg, serial, digest, previous) on handed to head_office_loader;
grant execute on function take_in(text, boolean, timestamptz), note_refusal(text, text, text, timestamptz), wants_whole(text), begin_load(text, timestamptz),
    refuse_receipt(text, text), receipt_of_load(text) to head_office_loader;
grant execute on function end_stuck_loads(), check_office(boolean) to head_office_reader;
grant execute on function digest_of(bigint, text, text, text, timestamp, integer, integer, integer, integer, text, text),
    line_of(bigint, text, text, text, timestamp, integer, integer, integer, integer, text, text, text), kept_digest_of(integer, integer), is_of_age(timestamptz, integer),
    html(text), short(text), thousands(bigint)
    to head_office_registrar, head_office_reader;

-- From here on only a superuser can take the roles that store and that end connections.
set local role none;
alter function head_office.take_in(text, boolean, timestamptz) owner to head_office_storer;
alter function head_office.take_back(bigint, text) owner to head_office_storer;
alter function head_office.who_stops(text) owner to head_office_guard;
alter function head_office.end_stuck_loads() owner to head_office_guard;
grant execute on function head_office.who_stops(text) to head_office;
do $$
declare
    role text;
begin
    foreach role in array array['head_office_storer', 'head_office_guard'] loop
        if exists (select from pg_auth_members where roleid = role::regrole and member = session_user::regrole) then
            execute format('revoke %I from %I', role, session_user);
        end if;
    end loop;
end $$;
set local role head_office;
