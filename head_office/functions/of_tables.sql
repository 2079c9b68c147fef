-- The entry's text by SHA-256: of version 2, with the previous digest, and of version 1 where there is none. Stable, since `convert_to` is: PostgreSQL
-- puts no function into a query that claims more than its body.
create or replace function digest_of(number bigint, key text, kind text, plate text, moment timestamp, gross_kg integer, preset_kg integer,
    interval_kg integer, max_kg integer, serial text, previous text) returns bytea stable parallel safe
    return sha256(convert_to(case when previous is null then 'version 1' else 'version 2' end || E'\nnumber ' || number || E'\nkey ' || key
        || E'\nkind ' || kind || E'\nplate ' || plate || E'\nmoment ' || date_part('epoch', moment)::bigint || E'\ngross ' || coalesce(gross_kg::text, '-')
        || E'\npreset ' || coalesce(preset_kg::text, '-') || E'\ninterval ' || interval_kg || E'\nmax ' || max_kg || E'\nserial ' || serial || E'\n'
        || coalesce(E'previous ' || previous || E'\n', ''), 'UTF8'));

create or replace function never_changed() returns trigger language plpgsql as
$$ begin raise exception '% is never changed', tg_table_name; end $$;

-- A text of any length has no place in an index. Immutable in a database of UTF-8.
create or replace function sha256_of(it text) returns bytea immutable strict parallel safe return sha256(convert_to(it, 'UTF8'));
