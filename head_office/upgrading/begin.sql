-- Begins the transaction of an upgrade, and takes every lock that it needs before it changes anything. That is `handed_mode` on the table `handed`, an exclusive lock on
-- the tables that `altered` names, and `others_mode` on the others. A load locks `handed` first, so behind this lock no load is under way. New loads wait behind it, so it is waited for no longer than `bound`
-- seconds. If the locks on the others aren't free within most of the time after which the server looks for a deadlock, all are given back and tried again
-- later. So neither a load nor a reader is ever ended as part of a deadlock. After `wait` seconds the upgrade gives up.
\if :{?wait}
\else
\set wait 300
\endif
\if :{?altered}
\else
\set altered ''
\endif
begin;
set local client_min_messages = warning;
set local statement_timeout = 0;
set local idle_in_transaction_session_timeout = 0;
set local transaction_isolation = 'read committed';
select set_config('head_office.handed_mode', :'handed_mode', true), set_config('head_office.others_mode', :'others_mode', true),
    set_config('head_office.wait', :'wait', true), set_config('head_office.altered', :'altered', true) \g /dev/null

-- one upgrade at a time; `who_stops` recognizes an upgrade by this lock
do $$
declare
    its constant bigint := hashtext('head_office upgrade');
    holder text;
begin
    for turn in 1 .. 100 loop
        if pg_try_advisory_xact_lock(its) then
            return;
        end if;
        perform pg_sleep(0.1);
    end loop;
    select format('process %s of %s', pid, coalesce(usename, 'unknown')) into holder from pg_locks left join pg_stat_activity using (pid)
    where locktype = 'advisory' and database = (select oid from pg_database where datname = current_database()) and objid = its::bit(32)::bigint::oid and granted limit 1;
    raise exception '%: nothing was changed, because another upgrade is running: %; run upgrade again once it has ended', current_database(), coalesce(holder, 'unknown');
end $$;

do $$
declare
    began    constant timestamptz := clock_timestamp();
    patience constant interval := make_interval(secs => current_setting('head_office.wait')::float8);
    bound    integer := 5;
    since    timestamptz;
    tried    regclass;
    its      record;
    holders  text;
begin
    if to_regclass('head_office.handed') is null then
        return;
    end if;
    loop
        since := clock_timestamp();
        begin
            tried := 'head_office.handed';
            perform set_config('lock_timeout', bound || 's', true);
            execute format('lock table only head_office.handed in %s mode', current_setting('head_office.handed_mode'));
            -- loads wait from here on
            since := clock_timestamp();
            perform set_config('lock_timeout', '100ms', true);
            for its in
                select oid::regclass as name, relname, relkind from pg_class
                where relnamespace = 'head_office'::regnamespace and relkind in ('r', 'p', 'v') and not relispartition order by relkind, relname
            loop
                tried := its.name;
                if its.relkind = 'v' then
                    -- changes nothing; LOCK TABLE would lock the tables of the view, too
                    execute format('alter view %s owner to head_office', its.name);
                else
                    execute format('lock table only %s in %s mode', its.name, case when its.relname = any (string_to_array(current_setting('head_office.altered'), ' '))
                        then 'access exclusive' else current_setting('head_office.others_mode') end);
                end if;
                if clock_timestamp() > since + 0.7 * current_setting('deadlock_timeout')::interval then
                    raise lock_not_available;
                end if;
            end loop;
            perform set_config('lock_timeout', '10s', true);
            return;
        exception when lock_not_available or deadlock_detected then
            select string_agg(distinct format('process %s of %s', l.pid, coalesce(a.usename, a.backend_type, 'unknown')), ', ') into holders
            from pg_locks l left join pg_stat_activity a using (pid)
            where l.relation = tried and l.database = (select oid from pg_database where datname = current_database()) and l.granted and l.pid <> pg_backend_pid();
        end;
        if clock_timestamp() + make_interval(secs => bound) > began + patience then
            raise exception '%: nothing was changed, because others used % for % seconds: %; run upgrade again once they have ended', current_database(), tried,
                round(extract(epoch from clock_timestamp() - began)), coalesce(holders, 'transactions that have ended since');
        end if;
        -- loads continue for as long as they were made to wait
        perform pg_sleep((0.5 + random()) * greatest(0.5, least(5, extract(epoch from clock_timestamp() - since))));
        if tried = 'head_office.handed'::regclass then
            bound := least(2 * bound, 15);
        end if;
    end loop;
end $$;
