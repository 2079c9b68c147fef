-- `take_in` runs as the role head_office_storer, which has no login and no members. The trigger stored_by_a_load recognizes a load by that role, so it needs none
-- of the server's messages. `end_stuck_loads` and `who_stops` run as the role head_office_guard. It has no login and no members either, so only these
-- functions have its rights. While this file runs, the schema's owner owns the functions, and the login that upgrades is a member of the roles.
do $$
declare
    role   text;
    signed text;
begin
    foreach role in array array['head_office_storer', 'head_office_guard'] loop
        if not exists (select from pg_roles where rolname = role) then
            execute format('create role %I nologin', role);
        end if;
        if not exists (select from pg_auth_members where roleid = 'head_office'::regrole and member = role::regrole) then
            execute format('grant head_office to %I', role);
        end if;
        if not pg_has_role(role, 'member') then
            execute format('grant %I to %I', role, session_user);
        end if;
    end loop;
    for signed in
        select oid::regprocedure from pg_proc
        where pronamespace = 'head_office'::regnamespace and proowner in ('head_office_storer'::regrole, 'head_office_guard'::regrole)
    loop
        execute format('alter function %s owner to head_office', signed);
    end loop;
end $$;
