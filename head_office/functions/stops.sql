-- Names the login that stopped a load: that of another load of its bridge, or one that has locked the bridge's row of `standing`. Otherwise it is one that has, or
-- asks for, a lock on a table that no load can share. Says since when, and for whom that one waits itself. Without a bridge only the tables are asked. The load has given up by then, so it may be that
-- nobody is found any more.
create or replace function who_stops(of_bridge text) returns text
language plpgsql security definer set search_path = head_office, pg_temp set lock_timeout = '1s' as $$
declare
    its       integer;
    one       record;
    seen      integer[] := array[pg_backend_pid()];
    said      text := '';
    is_loaded boolean;
begin
    select l.pid into its from pg_locks l
    where l.locktype = 'advisory' and l.database = (select oid from pg_database where datname = current_database()) and l.pid <> pg_backend_pid()
        and l.classid = hashtext('head_office load')::bit(32)::bigint::oid and l.objid = hashtext(of_bridge)::bit(32)::bigint::oid limit 1;
    is_loaded := its is not null;
    if its is null then
        begin
            select l.pid into its from standing s join journal j using (journal) join pg_locks l on l.locktype = 'transactionid' and l.transactionid = s.xmax and l.granted
            where j.bridge = of_bridge and l.pid <> pg_backend_pid() limit 1;
        exception when lock_not_available then
            null;
        end;
    end if;
    if its is null then
        select l.pid into its from pg_locks l join pg_class c on c.oid = l.relation
        where l.database = (select oid from pg_database where datname = current_database()) and c.relnamespace = 'head_office'::regnamespace
            and l.mode in ('ShareLock', 'ShareRowExclusiveLock', 'ExclusiveLock', 'AccessExclusiveLock') and l.pid <> pg_backend_pid()
        order by l.granted desc, l.waitstart, l.pid limit 1;
    end if;
    while its is not null and cardinality(seen) < 6 loop
        select coalesce('login ' || a.usename, a.backend_type) as who, coalesce(utc(a.xact_start), 'an unknown moment') as since,
            case when not pg_has_role(a.usesysid, 'head_office_loader', 'member') or r.rolsuper then case
                when exists (select from pg_locks l where l.pid = a.pid and l.locktype = 'advisory' and l.objid = hashtext('head_office upgrade')::bit(32)::bigint::oid)
                    then 'an upgrade by '
                when a.query ~* '\mseal\s*\(' then 'a seal by ' end end as task,
            case when a.state like 'idle in transaction%' then 'idles' else 'runs' end as does,
            (select b from unnest(pg_blocking_pids(a.pid)) b where b <> all (seen || a.pid) limit 1) as next
        into one from pg_stat_activity a left join pg_roles r on r.oid = a.usesysid where a.pid = its;
        exit when not found;
        is_loaded := is_loaded and (said <> '' or one.task is null);
        said := said || case when one.task is not null then format('%s%s since %s', one.task, one.who, one.since) || case when one.next is not null then ', which waits for ' else '' end
            else format('%s, whose transaction is open since %s and ', one.who, one.since) || case when one.next is not null then 'waits for ' else one.does end end;
        seen := seen || its;
        its := one.next;
    end loop;
    return case when said = '' then 'stopped for a minute by a transaction that has ended since'
        when is_loaded then 'another load of this bridge was not done within a minute: ' || said else 'stopped by ' || said end;
end $$;

-- The first step of a load, before its records come. Says a refusal if this login may not load the bridge, or if the lock that its records need isn't free.
create or replace function begin_load(of_bridge text, fetched timestamptz default null) returns text
language plpgsql security definer set search_path = head_office, pg_temp set lock_timeout = '60s' as $$
begin
    -- before all else, as an upgrade does
    lock table only handed in row exclusive mode;
    of_bridge := named_now(of_bridge);
    if not may_load(of_bridge) then
        return write_refusal(of_bridge, 'login', format('%s hands nothing in for %s', session_user, of_bridge), fetched);
    end if;
    return null;
exception when lock_not_available or deadlock_detected then
    return write_refusal(of_bridge, 'waited', who_stops(null), fetched);
end $$;

-- Ends connections of loaders that may stop others, and says of each why. A client can lift its own time-outs, so these are the server's. A load of the
-- package waits for a lock for a minute at most, idles for none, and is killed by its unit after ten minutes.
create or replace function end_stuck_loads() returns setof text
language plpgsql security definer set search_path = head_office, pg_temp
set idle_in_transaction_session_timeout = '60s' set lock_timeout = '90s' set statement_timeout = '10min' as $$
declare
    idles interval := current_setting('idle_in_transaction_session_timeout')::interval;
    waits interval := current_setting('lock_timeout')::interval;
    runs  interval := current_setting('statement_timeout')::interval;
    one   record;
begin
    insert into guard_run (at) values (now()) on conflict (is_one) do update set at = excluded.at;
    for one in
        select a.pid, a.usename, case
            when not r.rolcanlogin then 'its login is locked out'
            when exists (select from pg_locks l where l.pid = a.pid and l.locktype = 'advisory' and l.classid <> hashtext('head_office load')::bit(32)::bigint::oid)
                then 'it held an advisory lock, which no load needs'
            when a.state like 'idle in transaction%' and a.state_change < clock_timestamp() - idles then 'it idled in a transaction for longer than a minute'
            when exists (select from pg_locks l where l.pid = a.pid and not l.granted and l.waitstart < clock_timestamp() - waits)
                then 'it waited for a lock for longer than 90 seconds'
            when a.xact_start < clock_timestamp() - runs then 'its transaction took longer than 10 minutes' end as why
        from pg_stat_activity a join pg_roles r on r.oid = a.usesysid
        where a.datname = current_database() and a.pid <> pg_backend_pid() and not r.rolsuper and pg_has_role(r.oid, 'head_office_loader', 'member')
    loop
        if one.why is not null and pg_terminate_backend(one.pid) then
            insert into ended_connection (login, pid, why) select one.usename, one.pid, one.why
            where (select count(*) from (select from ended_connection where login = one.usename and at > now() - interval '1 day' limit 100) e) < 100;
            return next format('%s: process %s was ended: %s', one.usename, one.pid, one.why);
        end if;
    end loop;
end $$;
