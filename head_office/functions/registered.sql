-- Only a load stores entries, also late ones of a year that is over. No other statement does, not even the schema owner's or a superuser's.
create or replace function stored_by_a_load() returns trigger language plpgsql as $$
begin
    if current_user <> 'head_office_storer' then
        raise exception '% is stored by a load alone', tg_table_name;
    end if;
    return null;
end $$;
create or replace trigger stored_by_a_load before insert on entry for each statement execute function stored_by_a_load();
create or replace trigger never_changed before update or delete or truncate on acknowledgement for each statement execute function never_changed();
create or replace trigger never_changed before update or delete or truncate on refusal for each statement execute function never_changed();
create or replace trigger never_changed before update or delete or truncate on change for each statement execute function never_changed();
create or replace trigger never_changed before update or delete or truncate on sealed_year for each statement execute function never_changed();
create or replace trigger never_changed before update or delete or truncate on sealed_entry for each statement execute function never_changed();

-- Writes down who changed what is registered.
create or replace function note_change() returns trigger language plpgsql security definer set search_path = head_office, pg_temp as $$
begin
    insert into change (of_table, was, is_now) values (tg_table_name, to_jsonb(old), to_jsonb(new));
    return null;
end $$;
create or replace trigger noted after insert or update or delete on bridge for each row execute function note_change();
create or replace trigger noted after insert or update or delete on instrument for each row execute function note_change();
create or replace trigger noted after insert or update or delete on journal for each row execute function note_change();
create or replace trigger noted after insert or update or delete on follower for each row execute function note_change();
create or replace trigger noted after insert or update or delete on loader for each row execute function note_change();
create or replace trigger noted after insert or update or delete on haulier for each row execute function note_change();

-- Other days make other sums; a retention that was lowered would hide entries that are gone too early.
create or replace function follow_bridge() returns trigger language plpgsql security definer set search_path = head_office, pg_temp as $$
begin
    if new.zone <> old.zone then
        perform rebuild_sums(new.bridge);
    end if;
    if new.retention_days < old.retention_days then
        insert into finding (journal, what, first, last, record)
        select max(journal), 'lowered', 0, (select max(change) from change), format('from %s to %s days, by %s', old.retention_days, new.retention_days, session_user)
        from journal where bridge = new.bridge having count(*) > 0;
    end if;
    return null;
end $$;
create or replace trigger noted_then_followed after update on bridge for each row execute function follow_bridge();

create or replace function follow_journal() returns trigger language plpgsql security definer set search_path = head_office, pg_temp as $$
begin
    insert into standing (journal) values (new.journal);
    return null;
end $$;
create or replace trigger noted_then_followed after insert on journal for each row execute function follow_journal();

create or replace function follow_follower() returns trigger language plpgsql security definer set search_path = head_office, pg_temp as $$
begin
    perform rebuild_sums(new.bridge);
    return null;
end $$;
create or replace trigger noted_then_followed after insert on follower for each row execute function follow_follower();

create or replace function warn_of_login() returns trigger language plpgsql security definer set search_path = head_office, pg_temp as $$
declare
    most integer;
begin
    select rolconnlimit into most from pg_catalog.pg_roles where rolname = new.login;
    if not found then
        raise warning 'there is no login %: CREATE ROLE % LOGIN CONNECTION LIMIT 3 IN ROLE head_office_loader', new.login, quote_ident(new.login);
    elsif most < 0 then
        raise warning 'login % may open all connections: ALTER ROLE % CONNECTION LIMIT 3', new.login, quote_ident(new.login);
    end if;
    if exists (select from loader_login where login = new.login and is_there and temp_file_limit is null) then
        raise warning 'login % may fill the disk with temporary files: ALTER ROLE % SET temp_file_limit = ''256MB''', new.login, quote_ident(new.login);
    end if;
    return null;
end $$;
create or replace trigger warned after insert on loader for each row execute function warn_of_login();

-- A zone is named after a place, such as Europe/Berlin. PostgreSQL also accepts `UTC+2` and `Etc/GMT+2`, whose sign is the other way round, and `CEST`, which is
-- summer all year.
create or replace function named_zone() returns trigger language plpgsql as $$
begin
    if not exists (select from pg_timezone_names where name = new.zone and name !~ '[+-][0-9]') then
        raise exception 'there is no time zone %: write one such as Europe/Berlin, of the view pg_timezone_names', quote_literal(new.zone) using errcode = 'invalid_parameter_value';
    end if;
    return new;
end $$;
create or replace trigger named_zone before insert or update of zone on bridge for each row execute function named_zone();

-- Loads come under a former name, so no other bridge may have it.
create or replace function keep_names_apart() returns trigger language plpgsql security definer set search_path = head_office, pg_temp as $$
declare
    other text := (select bridge from former_name where former = new.bridge);
begin
    if tg_op = 'INSERT' and other is not null or other <> old.bridge then
        raise exception '% is a former name of %, under which its loads may still come', new.bridge, other using errcode = 'unique_violation';
    end if;
    delete from former_name where former = new.bridge;
    return new;
end $$;
create or replace trigger keep_names_apart before insert or update of bridge on bridge for each row execute function keep_names_apart();

create or replace function follow_name() returns trigger language plpgsql security definer set search_path = head_office, pg_temp as $$
begin
    insert into former_name (former, bridge) values (old.bridge, new.bridge);
    return null;
end $$;
create or replace trigger noted_then_named after update of bridge on bridge for each row when (new.bridge <> old.bridge) execute function follow_name();

-- The present name of a bridge that is named by it, or by a former one.
create or replace function named_now(its text) returns text stable language sql as
$$ select coalesce((select bridge from former_name where former = its), its) $$;

-- An instrument belongs to one bridge at a time. It can't be taken from a bridge for a time of which entries are stored.
create or replace function one_bridge_at_a_time() returns trigger language plpgsql security definer set search_path = head_office, pg_temp as $$
declare
    other  instrument;
    newest timestamptz;
begin
    lock table instrument in share row exclusive mode;
    select * into other from instrument
    where serial = new.serial and since < new.until and new.since < until and (tg_op = 'INSERT' or since <> old.since) limit 1;
    if found then
        raise exception 'serial % is registered for % from % to %', other.serial, other.bridge, other.since, other.until using errcode = 'unique_violation';
    elsif tg_op = 'UPDATE' then
        select max(e.moment) into newest from entry e join journal j using (journal)
        where j.bridge = new.bridge and e.serial = new.serial and e.moment >= new.until and e.moment < old.until;
        if newest is not null then
            raise exception '% has entries of % up to %', new.bridge, new.serial, utc(newest) using errcode = 'check_violation';
        end if;
    end if;
    return new;
end $$;
create or replace trigger one_bridge_at_a_time before insert or update of since, until on instrument for each row execute function one_bridge_at_a_time();

-- A plate may have several hauliers. For each of them it counts once.
create or replace function plate_once() returns trigger language plpgsql security definer set search_path = head_office, pg_temp as $$
declare
    other haulier;
begin
    lock table haulier in share row exclusive mode;
    select * into other from haulier
    where plate = new.plate and haulier = new.haulier and since < new.until and new.since < until and (tg_op = 'INSERT' or since <> old.since) limit 1;
    if found then
        raise exception 'plate % is registered for % from % to %', other.plate, other.haulier, other.since, other.until using errcode = 'unique_violation';
    end if;
    return new;
end $$;
create or replace trigger plate_once before insert or update of since, until on haulier for each row execute function plate_once();
create or replace trigger noted after insert or update or delete on former_name for each row execute function note_change();
