-- The table into which a login hands records in.
create or replace function landing_of(its name) returns text immutable parallel safe
    return 'handed_by_' || case when octet_length(its::text) <= 50 then its::text else md5(its::text) end;

-- Makes that table, if there is none. Loads don't wait for it.
create or replace function make_landing(its name) returns void
language plpgsql security definer set search_path = head_office, pg_temp set lock_timeout = '10s' as $$
begin
    if to_regclass(format('head_office.%I', landing_of(its))) is not null then
        return;
    end if;
    lock table only handed in share update exclusive mode;
    if to_regclass(format('head_office.%I', landing_of(its))) is null then
        execute format('create unlogged table %I (like handed including defaults including constraints) '
            'with (autovacuum_vacuum_scale_factor = 0, autovacuum_vacuum_threshold = 10000, autovacuum_analyze_scale_factor = 1)', landing_of(its));
        execute format('alter table handed attach partition %I for values in (%L)', landing_of(its), its);
    end if;
end $$;

create or replace function follow_loader() returns trigger language plpgsql security definer set search_path = head_office, pg_temp as $$
begin
    perform make_landing(new.login);
    return null;
end $$;
create or replace trigger noted_then_followed after insert or update on loader for each row execute function follow_loader();

-- How many bytes each text of a record may have. A sound record has 32 in its key, 12 in its plate, 16 in its serial and 64 in a digest, at most. Longer texts
-- of a changed record are still a finding up to this bound.
create or replace function most_of(a_column text) returns integer immutable parallel safe
    return case when a_column in ('digest', 'previous') then 200 else 64 end;

-- Refuses a record that is too long, and counts now and then while records come. No journal has more than 100,000 places. `handed` calls it for a record in
-- 4,096, by a number that no client can foresee, because a count of each one takes more than the record itself.
create or replace function keep_record_short() returns trigger language plpgsql security definer set search_path = head_office, pg_temp as $$
declare
    named text;
    given integer;
    many  bigint;
begin
    select t.named, t.given into named, given
    from (values ('key', octet_length(new.key)), ('kind', octet_length(new.kind)), ('plate', octet_length(new.plate)), ('serial', octet_length(new.serial)),
        ('digest', octet_length(new.digest)), ('previous', octet_length(new.previous))) t (named, given)
    where t.given > most_of(t.named) limit 1;
    if named is not null then
        raise exception 'the % of record % has % bytes, and at most % are accepted', named, new.number, given, most_of(named) using errcode = 'string_data_right_truncation';
    end if;
    -- 100,000 of the shortest records have more bytes
    if pg_relation_size(tg_relid) > 14000000 then
        execute format('select count(*) from (select from %I where within = pg_current_xact_id() limit 100001) h', tg_table_name) into many;
        if many > 100000 then
            raise exception 'more records than a journal has places' using errcode = 'program_limit_exceeded';
        end if;
    end if;
    return new;
end $$;

-- Keeps records until the load of their transaction, and removes those of earlier ones. Past 64 MB, which is more than the longest sound export takes, it empties
-- the table, unless another connection of the login uses it. Then it refuses more records at 128 MB.
create or replace function keep_handed_small() returns trigger language plpgsql security definer set search_path = head_office, pg_temp as $$
declare
    its  text := landing_of(session_user);
    many bigint;
begin
    if tg_when = 'AFTER' then
        execute format('select count(*) from (select from %I where within = pg_current_xact_id() limit 100001) h', its) into many;
        if many > 100000 then
            raise exception 'more records than a journal has places' using errcode = 'program_limit_exceeded';
        end if;
        return null;
    elsif not exists (select from loader where login = session_user) then
        raise exception '% hands nothing in', session_user using errcode = 'insufficient_privilege';
    end if;
    if pg_relation_size(format('head_office.%I', its)::regclass) > 64000000 then
        execute format('select count(*) from (select from %I where within = pg_current_xact_id() limit 1) h', its) into many;
        begin
            if many = 0 then
                execute format('lock table %I in access exclusive mode nowait', its);
                execute format('truncate %I', its);
            end if;
        exception when lock_not_available then
            null;
        end;
        if pg_relation_size(format('head_office.%I', its)::regclass) > 128000000 then
            raise exception 'too much was handed in and refused by %: end its other transactions', session_user using errcode = 'program_limit_exceeded';
        end if;
    end if;
    execute format('delete from %I where within <> pg_current_xact_id()', its);
    return null;
end $$;

-- A trigger that is there stays as it is, because making it again would stop all loads while one transaction is open.
do $$
begin
    if not exists (select from pg_trigger where tgrelid = 'handed'::regclass and tgname = 'short_and_counted') then
        create or replace trigger left_before before insert on handed for each statement execute function keep_handed_small();
        create or replace trigger not_too_many after insert on handed for each statement execute function keep_handed_small();
        create trigger short_and_counted before insert on handed for each row
            when (octet_length(new.key) > 64 or octet_length(new.kind) > 64 or octet_length(new.plate) > 64 or octet_length(new.serial) > 64
                or octet_length(new.digest) > 200 or octet_length(new.previous) > 200
                or get_byte(uuid_send(gen_random_uuid()), 0) = 0 and get_byte(uuid_send(gen_random_uuid()), 0) < 16)
            execute function keep_record_short();
    end if;
    perform make_landing(login) from (select distinct login from loader) l;
end $$;
