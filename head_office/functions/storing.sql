-- Stores the new entries that are sound, each in the table of its year, and notes which years these are. Only if one of them isn't, each is held against its
-- digest.
create or replace function insert_new(it taking) returns bigint language plpgsql as $$
declare
    added bigint;
    lacks integer;
    may   boolean := true;
begin
    for lacks in
        select year from (select distinct year from compared where sound and not known offset 0) y where to_regclass('head_office.' || table_of(year)) is null
    loop
        -- a record that doesn't fit its digest makes no table; where none can be made now the entry stands in entry_before
        if exists (select from compared where year = lacks and sound and not known
            and own = digest_of(number, key, kind, plate, moment, gross_kg, preset_kg, interval_kg, max_kg, serial, previous)) then
            may := may and make_year(lacks);
            update compared set year = 0 where year = lacks and not may;
        end if;
    end loop;
    begin
        insert into entry (journal, number, key, kind, plate, moment, gross_kg, preset_kg, interval_kg, max_kg, serial, digest, previous, year)
        select it.journal, number, key, kind, plate, moment at time zone 'UTC', gross_kg, preset_kg, interval_kg, max_kg, serial, own,
            decode(previous, 'hex'), year from compared where sound and not known order by number;
        get diagnostics added = row_count;
    exception when check_violation then
        update compared set sound = false where sound and not known
            and own is distinct from digest_of(number, key, kind, plate, moment, gross_kg, preset_kg, interval_kg, max_kg, serial, previous);
        insert into entry (journal, number, key, kind, plate, moment, gross_kg, preset_kg, interval_kg, max_kg, serial, digest, previous, year)
        select it.journal, number, key, kind, plate, moment at time zone 'UTC', gross_kg, preset_kg, interval_kg, max_kg, serial, own,
            decode(previous, 'hex'), year from compared where sound and not known order by number;
        get diagnostics added = row_count;
    end;
    -- the table of a year holds a number once, and an export may have it in two years
    if exists (select from compared where number_below = number)
        and exists (select from compared where sound and not known group by number having count(*) > 1) then
        raise unique_violation using message = 'a number stands twice in the export';
    end if;
    insert into journal_year as y (journal, year, first, last, entries, received_at, begins, since, until)
    select it.journal, year, min(number), max(number), count(*), now(), min(number), year, year from compared where sound and not known group by year
    on conflict (journal, year) do update set first = least(y.first, excluded.first), last = greatest(y.last, excluded.last),
        entries = y.entries + excluded.entries, received_at = excluded.received_at, begins = least(y.begins, excluded.begins);
    perform widen_years(it.journal);
    return added;
end $$;

-- Pairs each new entry with the plate's last entry before it that is no Single. That is another new one, or the open First. If an entry comes late, the stored
-- entries are searched.
create or replace function pair(it taking, is_late boolean) returns void language plpgsql as $$
begin
    create temporary table paired on commit drop as
    select n.number, n.kind, n.plate, n.moment at time zone 'UTC' as moment, n.gross_kg, n.preset_kg,
        case when is_new then l_number when is_late then o.number else f.number end as former_number,
        case when is_new then l_kind when is_late then o.kind when f.number is not null then 'first' end as former_kind,
        case when is_new then l_gross_kg when is_late then o.gross_kg else f.gross_kg end as former_gross_kg
    from (
        select number, kind, plate, moment, gross_kg, preset_kg, lag(number) over w as l_number, lag(kind) over w as l_kind, lag(gross_kg) over w as l_gross_kg,
            coalesce(lag(number) over w > coalesce(it.stored, 0), false) as is_new
        from compared where sound and not known and kind <> 'single' window w as (partition by plate order by number)) n
    left join open_entry f on f.journal = it.journal and f.plate = n.plate
    left join lateral (
        select o.number, o.kind, o.gross_kg from entry o
        where is_late and not n.is_new and o.kind <> 'single' and o.plate = n.plate and ((o.journal::bigint << 32) | o.number) > it.journal::bigint << 32
            and ((o.journal::bigint << 32) | o.number) < ((it.journal::bigint << 32) | n.number)
        order by ((o.journal::bigint << 32) | o.number) desc limit 1) o on true
    union all
    select number, kind, plate, moment at time zone 'UTC', gross_kg, preset_kg, null, null, null from compared where sound and not known and kind = 'single';
end $$;

-- Adds the present sums of the tickets in `touched` to `delta`, multiplied by `times`.
create or replace function add_to_delta(times integer) returns void language plpgsql as $$
begin
    insert into delta
    select t.bridge, (t.at at time zone b.zone)::date, times * count(*), times * sum(t.gross_kg), times * sum(t.net_kg), times * coalesce(sum(t.net_kg) filter (where t.brought), 0),
        times * coalesce(sum(t.net_kg) filter (where not t.brought), 0), times * coalesce(sum(t.net_kg) filter (where t.kind = 'preset'), 0)
    from touched r
    cross join lateral (select coalesce(max(l.number), 0) as number from received_before l where l.journal = r.journal) z
    cross join lateral (select * from ticket_of_journal t where t.journal = r.journal and t.ticket between r.first and r.last and t.ticket > z.number offset 0) t
    join bridge b on b.bridge = t.bridge
    group by 1, 2;
end $$;

-- Stores the new entries, and keeps the sums and the open Firsts. The tickets of the new entries change. If a missing entry comes late, so does the ticket of the next
-- entry of its plate. So do the tickets of a follower's entries that the former journal has from now on.
create or replace function store(it taking) returns bigint language plpgsql as $$
declare
    added      bigint;
    behind     bigint := coalesce(it.stored, 0);
    is_late    boolean := behind > 0 and exists (select from compared where sound and not known and number <= behind);
    is_touched boolean;
begin
    create temporary table touched on commit drop as
    select f.journal, behind + 1 as first, it.highest as last from follower f where f.former = it.journal and it.highest > behind;
    if is_late then
        insert into touched
        select it.journal, n.number, n.number from compared n where n.sound and not n.known and n.number <= behind
        union
        select it.journal, o.number, o.number from compared n cross join lateral (
            select o.number from entry o
            where o.plate = n.plate and ((o.journal::bigint << 32) | o.number) > ((it.journal::bigint << 32) | n.number)
                and ((o.journal::bigint << 32) | o.number) < (it.journal + 1)::bigint << 32 and o.kind <> 'single'
            order by ((o.journal::bigint << 32) | o.number) limit 1) o
        where n.sound and not n.known and n.kind <> 'single' and n.number <= behind;
    end if;
    create temporary table delta (bridge text, day date, tickets bigint, gross_kg bigint, net_kg bigint, brought_kg bigint, taken_kg bigint, preset_kg bigint) on commit drop;
    is_touched := exists (select from touched);
    if is_touched then
        perform add_to_delta(-1);
    end if;
    added := insert_new(it);
    perform pair(it, is_late);
    if is_touched then
        perform add_to_delta(1);
    end if;
    insert into delta
    select it.bridge, (moment at time zone (select zone from bridge where bridge = it.bridge))::date, count(*), sum(greatest(gross_kg, former_gross_kg)),
        sum(coalesce(gross_kg - preset_kg, abs(gross_kg - former_gross_kg))), coalesce(sum(abs(gross_kg - former_gross_kg)) filter (where former_gross_kg > gross_kg), 0),
        coalesce(sum(abs(gross_kg - former_gross_kg)) filter (where former_gross_kg <= gross_kg), 0), coalesce(sum(gross_kg - preset_kg) filter (where kind = 'single'), 0)
    from paired
    where number > behind and (kind = 'single' or kind = 'second' and former_kind = 'first')
        and number > (select coalesce(max(number), 0) from received_before where journal = it.journal)
    group by 2;
    insert into day_sum as s (day, bridge, tickets, gross_kg, net_kg, brought_kg, taken_kg, preset_kg)
    select day, bridge, sum(tickets), sum(gross_kg), sum(net_kg), sum(brought_kg), sum(taken_kg), sum(preset_kg) from delta group by day, bridge
    on conflict (day, bridge) do update set tickets = s.tickets + excluded.tickets, gross_kg = s.gross_kg + excluded.gross_kg, net_kg = s.net_kg + excluded.net_kg,
        brought_kg = s.brought_kg + excluded.brought_kg, taken_kg = s.taken_kg + excluded.taken_kg, preset_kg = s.preset_kg + excluded.preset_kg;
    delete from day_sum s using (select distinct day, bridge from delta) d where s.day = d.day and s.bridge = d.bridge and s.tickets = 0;

    delete from open_entry where journal = it.journal and plate = any (array(select distinct plate from paired where kind <> 'single'));
    if not is_late then
        insert into open_entry (journal, plate, number, since, gross_kg)
        select it.journal, p.plate, p.number, p.moment, p.gross_kg
        from (select distinct on (plate) plate, number, kind, moment, gross_kg from paired where kind <> 'single' order by plate, number desc) p
        where p.kind = 'first';
        return added;
    end if;
    insert into open_entry (journal, plate, number, since, gross_kg)
    select it.journal, p.plate, o.number, o.moment, o.gross_kg
    from (select distinct plate from paired where kind <> 'single') p cross join lateral (
        select o.number, o.kind, o.moment, o.gross_kg from entry o
        where o.plate = p.plate and o.kind <> 'single' and ((o.journal::bigint << 32) | o.number) > it.journal::bigint << 32
            and ((o.journal::bigint << 32) | o.number) < (it.journal + 1)::bigint << 32
        order by ((o.journal::bigint << 32) | o.number) desc limit 1) o
    where o.kind = 'first';
    return added;
end $$;
