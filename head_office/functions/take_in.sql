-- Takes in the export of a bridge's journal from the login's landing table, fetched at that moment. It stores new entries without fault, and leaves stored ones as they
-- are. Everything else is a finding. A refused export changes nothing, and the refusal is written down. An export of only the newest entries is no finding for the
-- older ones that it lacks.
create or replace function take_in(of_bridge text, is_newest boolean default false, fetched timestamptz default null) returns setof text
language plpgsql security definer
set search_path = head_office, pg_temp set work_mem = '64MB' set jit = off set constraint_exclusion = off set plan_cache_mode = force_custom_plan
set lock_timeout = '60s' as $$
declare
    it     taking;
    added  bigint;
    reason text;
    why    text;
begin
    of_bridge := named_now(of_bridge);
    begin
        it := admit(of_bridge, is_newest, fetched);
        perform refuse_others(it);
        it := place(it);
        perform compare(it);
        perform leave_aside(it);
        added := store(it);
        perform find_in_export(it);
        perform find_in_entries(it);
        perform find_in_journals(it);
        perform clear_handed();
        return query select * from write_load(it, added);
        return;
    exception
        when sqlstate 'HO001' then
            get stacked diagnostics why = message_text, reason = pg_exception_hint;
        when check_violation or unique_violation or data_exception then
            get stacked diagnostics why = message_text;
            reason := 'form';
        when lock_not_available or deadlock_detected then
            why := who_stops(of_bridge);
            reason := 'waited';
    end;
    perform clear_handed();
    return next write_refusal(of_bridge, reason, why, fetched);
end $$;
