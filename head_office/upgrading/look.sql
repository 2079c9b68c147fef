-- Sets `was` to the version of the tables, which is 0 in a new database, and `made` to the sum of the files of functions/ that ran last. `is_of_sqitch` says whether
-- deploy/version_9.sql ran here. It takes no lock that a load needs. It changes nothing, except the roles of a login that hasn't them yet.
\set QUIET on
\set VERBOSITY terse
set client_min_messages = warning;
-- a login that is no superuser must be a member of the schema's owner
do $$
declare
    role text;
begin
    foreach role in array array['head_office', 'head_office_registrar', 'head_office_loader', 'head_office_reader'] loop
        if not exists (select from pg_roles where rolname = role) then
            execute format('create role %I nologin', role);
        end if;
    end loop;
    if not pg_has_role('head_office', 'member') then
        execute format('grant head_office to %I', current_user);
    end if;
end $$;
select to_regclass('head_office.version') is not null as has_version, to_regclass('head_office.applied_file') is not null as has_files \gset
\set was 0
\if :has_version
select coalesce(max(version), 0) as was from head_office.version \gset
\endif
\set made ''
\set is_of_sqitch false
\if :has_files
select coalesce(max(sha256) filter (where name = 'functions'), '') as made,
    coalesce(bool_or(name = '1.sql' and sha256 = repeat('0', 64)), false) as is_of_sqitch from head_office.applied_file \gset
\endif
