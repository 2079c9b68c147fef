-- One digest over the entries that are kept of a sealed year.
create or replace function kept_digest_of(its integer, of_year integer) returns bytea stable
    return (select sha256(convert_to(coalesce(string_agg(concat_ws(',', number, kind, extract(epoch from moment)::bigint, coalesce(gross_kg::text, ''),
        coalesce(preset_kg::text, ''), interval_kg, max_kg, serial, coalesce(partner::text, '')), E'\n' order by number), ''), 'UTF8'))
    from sealed_entry where journal = its and year = of_year);

-- Sealed years of which what is kept doesn't fit its digest any more: none, unless this cluster's own files were changed.
create or replace view unsound_year as
    select j.bridge, s.journal, s.year from sealed_year s join journal j using (journal) where s.kept_digest <> kept_digest_of(s.journal, s.year);

-- Years that are due: over for as many whole years as plates are kept.
create or replace view due_year as
    select b.bridge, y.year
    from bridge b join journal j using (bridge)
    cross join lateral (
        select extract(year from e.moment at time zone b.zone)::integer as year
        from (select * from journal_year y where y.journal = j.journal order by y.first limit 1) y
        cross join lateral (select e.moment from entry e where e.journal = y.journal and e.year = y.year and e.number = y.first offset 0) e) y
    where y.year + b.plate_years < extract(year from now() at time zone b.zone)
        -- a First of it whose Second comes later may stay
        and not exists (select from sealed_year s where s.journal = j.journal and s.year >= y.year)
    group by 1, 2;

-- Drops the plates of a bridge's entries up to the end of a year. The rest of an entry is kept without its plate, key and digest. One digest over the digests of all
-- is kept. A First whose Second comes later stays.
create or replace function seal(of_bridge text, of_year integer) returns setof text language plpgsql security definer set search_path = head_office, pg_temp set lock_timeout = '60s' as $$
declare
    its       bridge;
    one       record;
    ends      timestamptz;
    up_to     bigint;
    done      sealed_year;
begin
    select * into its from bridge where bridge = of_bridge;
    ends := make_timestamptz(of_year + 1, 1, 1, 0, 0, 0, its.zone);
    if its.bridge is null or its.plate_years is null then
        raise exception 'refused: nobody registered how long plates of % are kept: UPDATE head_office.bridge SET plate_years = ..', of_bridge;
    elsif of_year + its.plate_years >= extract(year from now() at time zone its.zone) then
        raise exception 'refused: % isn''t over for % whole years', of_year, its.plate_years;
    elsif not is_of_age(ends, its.retention_days) then
        raise exception 'refused: the bridge itself keeps entries of % yet', of_year;
    end if;
    perform lock_bridge(of_bridge);
    alter table entry disable trigger never_changed;
    alter table finding disable trigger never_changed;
    for one in select j.journal, s.sealed from journal j join standing s using (journal) where j.bridge = of_bridge order by j.journal loop
        select coalesce((select number - 1 from entry where journal = one.journal and moment >= ends order by number limit 1),
            (select max(number) from entry where journal = one.journal)) into up_to;
        update set_aside_entry set key = null, plate = null, digest = null, previous = null where journal = one.journal and moment < ends and digest is not null;
        continue when up_to is null or up_to <= one.sealed;
        if exists (select from open_finding f where f.journal = one.journal and split_part(f.numbers, '-', 1)::bigint <= up_to) then
            raise exception 'refused: findings of % up to number % aren''t acknowledged', of_bridge, up_to;
        end if;
        create temporary table sealing on commit drop as
        select e.*, p.number as partner, e.kind = 'first' and n.number > up_to as is_open
        from entry e left join lateral (
            select o.number, o.kind from entry o
            where o.plate = e.plate and ((o.journal::bigint << 32) | o.number) > e.journal::bigint << 32 and ((o.journal::bigint << 32) | o.number) < ((e.journal::bigint << 32) | e.number)
                and e.kind = 'second' and o.kind <> 'single'
            order by ((o.journal::bigint << 32) | o.number) desc limit 1) p on p.kind = 'first'
        left join lateral (
            select o.number from entry o
            where o.plate = e.plate and ((o.journal::bigint << 32) | o.number) > ((e.journal::bigint << 32) | e.number) and ((o.journal::bigint << 32) | o.number) < (e.journal + 1)::bigint << 32
                and e.kind = 'first' and o.kind <> 'single'
            order by ((o.journal::bigint << 32) | o.number) limit 1) n on true
        where e.journal = one.journal and e.number <= up_to;
        insert into sealed_entry (journal, number, year, kind, moment, gross_kg, preset_kg, interval_kg, max_kg, serial, partner)
        select journal, number, of_year, kind, moment, gross_kg, preset_kg, interval_kg, max_kg, serial, partner from sealing where is_open is not true;
        insert into sealed_year (journal, year, first, last, entries, digest, kept_digest)
        select one.journal, of_year, min(number), up_to, count(*), sha256(string_agg(digest, ''::bytea order by number)), kept_digest_of(one.journal, of_year)
        from sealing where number > one.sealed
        returning * into done;
        delete from entry e using sealing s where e.journal = s.journal and e.number = s.number and e.year = s.year and s.is_open is not true;
        perform rebuild_years(one.journal);
        delete from open_entry where journal = one.journal and number <= up_to and number in (select number from sealing where is_open is not true);
        update finding set record = format('sealed with %s', of_year) || ', ' || finding where journal = one.journal and first between 1 and up_to;
        update standing set sealed = up_to where journal = one.journal;
        drop table sealing;
        return next format('%s: journal %s, %s to %s, %s entries, %s', of_bridge, one.journal, done.first, done.last, done.entries, encode(done.digest, 'hex'));
    end loop;
    alter table entry enable trigger never_changed;
    alter table finding enable trigger never_changed;
end $$;
