-- Sets what a head office needs of its database, unless it is so already.
\set QUIET on
\set VERBOSITY terse
do $$
declare
    its record;
begin
    -- JIT and parallel workers cost more than they save here. Constraints would be compared with a query once for each year's table, which takes most of its
    -- planning. A load of 100,000 records reads its temporary tables ten times.
    if pg_has_role((select datdba from pg_database where datname = current_database()), 'member') then
        for its in
            select name, value from (values ('jit', 'off'), ('constraint_exclusion', 'off'), ('max_parallel_workers_per_gather', '0'), ('temp_buffers', '96MB')) v (name, value)
            where not exists (
                select from pg_db_role_setting s where s.setrole = 0 and s.setdatabase = (select oid from pg_database where datname = current_database())
                    and format('%s=%s', name, value) = any (s.setconfig))
        loop
            execute format('alter database %I set %I = %L', current_database(), its.name, its.value);
        end loop;
    end if;
    if exists (
        select from unnest(array['lo_creat(integer)', 'lo_create(oid)', 'lo_from_bytea(oid, bytea)']) f where has_function_privilege('public', 'pg_catalog.' || f, 'execute'))
    then
        if (select rolsuper from pg_roles where rolname = session_user) then
            revoke execute on function pg_catalog.lo_creat(integer), pg_catalog.lo_create(oid), pg_catalog.lo_from_bytea(oid, bytea) from public;
        else
            raise warning 'any login may fill the disk with large objects until a superuser says here: REVOKE EXECUTE ON FUNCTION lo_creat(integer), lo_create(oid), lo_from_bytea(oid, bytea) FROM PUBLIC';
        end if;
    end if;
end $$;

-- what the guard's functions need
do $$
declare
    lacks text;
begin
    select string_agg(r, ', ' order by r) into lacks from unnest(array['pg_read_all_stats', 'pg_signal_backend']) r where not pg_has_role('head_office_guard', r, 'member');
    if lacks is not null then
        execute format('grant %s to head_office_guard', lacks);
    end if;
exception when insufficient_privilege then
    raise warning 'no connection of a loader is ended, whatever it stops, until a superuser says: GRANT % TO head_office_guard', lacks;
end $$;

-- only a superuser bounds temporary files; what was set for a login stays
do $$
declare
    its name;
begin
    for its in select distinct login from head_office.loader_login where is_there and temp_file_limit is null order by login loop
        if (select rolsuper from pg_roles where rolname = session_user) then
            execute format('alter role %I set temp_file_limit = ''256MB''', its);
        else
            raise warning 'login % may fill the disk with temporary files until a superuser says: ALTER ROLE % SET temp_file_limit = ''256MB''', its, quote_ident(its);
        end if;
    end loop;
end $$;

-- the registry of sqitch belongs to the schema's owner, so that another login can upgrade the next time
do $$
declare
    its record;
begin
    for its in
        select 'schema' as kind, nspname::text as name from pg_namespace where nspname = 'head_office_sqitch' and nspowner <> 'head_office'::regrole
        union all
        select 'table', oid::regclass::text from pg_class where relnamespace = to_regnamespace('head_office_sqitch') and relkind = 'r' and relowner <> 'head_office'::regrole
    loop
        execute format('alter %s %s owner to head_office', its.kind, its.name);
    end loop;
end $$;
select 'the schema is of version ' || max(version) from head_office.version;
