-- The open Firsts of each journal, from its entries.
create or replace view computed_open_entry as
    select e.journal, e.plate, e.number, e.moment as since, e.gross_kg
    from (
        select distinct on (plate, journal) plate, journal, number, kind, moment, gross_kg from entry
        where kind <> 'single' order by plate, journal, number desc) e
    where e.kind = 'first' and e.number > (select sealed from standing s where s.journal = e.journal);

-- Vehicles on site, over all bridges: what is open in each bridge's newest journal. None is at a bridge that is retired.
create or replace view on_site as
    select j.bridge, o.plate, o.number, o.since, o.gross_kg
    from open_entry o join (select bridge, max(journal) as journal from journal join bridge using (bridge) where coalesce(retired_at > now(), true) group by bridge) j using (journal);

-- The row of each journal and year, computed from the entries.
create or replace view computed_journal_year as
    select journal, year, min(number) as first, max(number) as last, count(*) as entries, max(received_at) as received_at from entry group by 1, 2;

-- Sums, open Firsts and years that differ from what the entries say: none.
create or replace view sum_difference as
    select coalesce(s.bridge, c.bridge) as bridge, coalesce(s.day, c.day)::text as what, to_jsonb(s) as kept, to_jsonb(c) as computed
    from day_total s full join computed_day_total c on c.bridge = s.bridge and c.day = s.day
    where (s.tickets, s.gross_kg, s.net_kg, s.brought_kg, s.taken_kg, s.preset_kg) is distinct from (c.tickets, c.gross_kg, c.net_kg, c.brought_kg, c.taken_kg, c.preset_kg)
    union all
    select j.bridge, coalesce(o.plate, c.plate), to_jsonb(o), to_jsonb(c)
    from open_entry o full join computed_open_entry c on c.journal = o.journal and c.plate = o.plate join journal j on j.journal = coalesce(o.journal, c.journal)
    where (o.number, o.since, o.gross_kg) is distinct from (c.number, c.since, c.gross_kg)
    union all
    select j.bridge, coalesce(y.year, c.year)::text, to_jsonb(y), to_jsonb(c)
    from journal_year y full join computed_journal_year c on c.journal = y.journal and c.year = y.year
    join journal j on j.journal = coalesce(y.journal, c.journal)
    where (y.first, y.last, y.entries, y.received_at) is distinct from (c.first, c.last, c.entries, c.received_at);

-- The lock of a bridge. The advisory lock keeps nobody out: it only shows `who_stops` which process has the other one, whose row names a subtransaction.
create or replace function lock_bridge(of_bridge text) returns void language plpgsql as $$
begin
    perform 1 from standing s join journal j using (journal) where j.bridge = of_bridge order by s.journal for update of s;
    perform pg_try_advisory_xact_lock_shared(hashtext('head_office load'), hashtext(of_bridge));
end $$;

-- Computes the sums and open Firsts of a bridge again from its entries, after a change that is no load.
create or replace function rebuild_sums(of_bridge text) returns void language plpgsql security definer set search_path = head_office, pg_temp as $$
declare
    its integer;
begin
    perform lock_bridge(of_bridge);
    perform rebuild_years(journal) from journal where bridge = of_bridge;
    delete from day_sum where bridge = of_bridge;
    insert into day_sum (day, bridge, tickets, gross_kg, net_kg, brought_kg, taken_kg, preset_kg)
    select day, bridge, tickets, gross_kg, net_kg, brought_kg, taken_kg, preset_kg from computed_day_total where bridge = of_bridge;
    -- joined with its journals, the view would sort the entries of all bridges
    for its in select journal from journal where bridge = of_bridge loop
        delete from open_entry where journal = its;
        insert into open_entry (journal, plate, number, since, gross_kg)
        select journal, plate, number, since, gross_kg from computed_open_entry where journal = its;
    end loop;
end $$;
