-- Corrections. False entries, for example of a stolen login, are set aside: moved out of the entries as they came. Then nothing counts them, and their numbers are free for
-- the bridge's own entries, which its next whole export or an older one brings.
create or replace trigger never_changed before update or delete or truncate on correction for each statement execute function never_changed();

-- The entries that are set aside, each with why, by whom and when.
create or replace view set_aside as
    select j.bridge, e.journal, e.number, e.kind, e.plate, e.moment, e.gross_kg, e.preset_kg, e.serial, c.correction, c.why, c.by, c.at
    from set_aside_entry e join correction c using (correction) join journal j on j.journal = e.journal;

-- Sets the entries of a journal with these numbers aside. Returns a line about it.
create or replace function set_aside(its integer, a bigint, z bigint, because text) returns text
language plpgsql security definer set search_path = head_office, pg_temp set lock_timeout = '60s' as $$
declare
    of_bridge text := (select bridge from journal where journal = its);
    many      bigint;
    nth       bigint;
begin
    if of_bridge is null then
        raise exception 'refused: there is no journal %', its;
    end if;
    perform lock_bridge(of_bridge);
    select count(*) into many from entry where journal = its and number between a and z;
    if many = 0 then
        raise exception 'refused: journal % of % has no entry from % to %', its, of_bridge, a, z;
    elsif exists (select from standing where journal = its and sealed >= a) then
        raise exception 'refused: plates of % are dropped up to number %', of_bridge, (select sealed from standing where journal = its);
    end if;
    insert into correction (journal, first, last, entries, why) values (its, a, z, many, because) returning correction into nth;
    insert into set_aside_entry (journal, number, key, kind, plate, moment, gross_kg, preset_kg, interval_kg, max_kg, serial, digest, received_at, previous, year, receipt, correction)
    select e.journal, e.number, e.key, e.kind, e.plate, e.moment, e.gross_kg, e.preset_kg, e.interval_kg, e.max_kg, e.serial, e.digest, e.received_at, e.previous, e.year,
        (select max(r.receipt) from receipt r where r.journal = its and r.numbers @> e.number), nth
    from entry e where e.journal = its and e.number between a and z;
    alter table entry disable trigger never_changed;
    delete from entry where journal = its and number between a and z;
    alter table entry enable trigger never_changed;
    perform rebuild_sums(of_bridge);
    return format('%s: correction %s: %s entries of journal %s are set aside', of_bridge, nth, many, its);
end $$;

-- Takes a correction back: its entries count again, unless others have got their numbers. Returns a line about it.
create or replace function take_back(its bigint, because text) returns text
language plpgsql security definer set search_path = head_office, pg_temp set lock_timeout = '60s' as $$
declare
    one       correction;
    of_bridge text;
    nth       bigint;
begin
    select * into one from correction where correction = its and takes_back is null;
    if one.correction is null then
        raise exception 'refused: there is no correction % that sets entries aside', its;
    end if;
    of_bridge := (select bridge from journal where journal = one.journal);
    perform lock_bridge(of_bridge);
    if exists (select from correction where takes_back = its) then
        raise exception 'refused: correction % was taken back before', its;
    elsif exists (select from entry e join set_aside_entry s using (journal, number) where s.correction = its) then
        raise exception 'refused: other entries have the numbers of correction % by now: set them aside first', its;
    elsif exists (select from set_aside_entry where correction = its and digest is null) then
        raise exception 'refused: plates of correction % are dropped', its;
    end if;
    insert into correction (journal, first, last, entries, takes_back, why) values (one.journal, one.first, one.last, one.entries, its, because) returning correction into nth;
    insert into entry (journal, number, key, kind, plate, moment, gross_kg, preset_kg, interval_kg, max_kg, serial, digest, received_at, previous, year)
    select journal, number, key, kind, plate, moment, gross_kg, preset_kg, interval_kg, max_kg, serial, digest, received_at, previous, year
    from set_aside_entry where correction = its order by number;
    delete from set_aside_entry where correction = its;
    perform rebuild_sums(of_bridge);
    return format('%s: correction %s: %s entries of journal %s count again', of_bridge, nth, one.entries, one.journal);
end $$;

-- Leaves records out that are set aside and came again, and finds them.
create or replace function leave_aside(it taking) returns void language plpgsql as $$
begin
    with again as (
        update compared c set known = true from set_aside_entry s
        where s.journal = it.journal and s.number = c.number and s.digest = c.own and c.sound and not c.known returning c.number
    )
    insert into found
    select 'set aside', min(number), max(number), 'set aside here, and came again'
    from (select number, number - row_number() over (order by number) as run from again) r group by run;
end $$;
