-- The tickets of each journal, only from its entries. The partner of a Second is the plate's last entry before it that is no Single, if that is a
-- First. A preset tare above the gross makes a net below zero, as at the bridge. Journal and number are one value, as in entry_by_plate. By a condition
-- on the journal and an order of numbers, PostgreSQL may read that journal backwards. The view looks in the table of the entry's own year first. If the partner isn't
-- there, it looks in those of earlier years, each time for the last entry before it in any journal. By two bounds, PostgreSQL would expect few rows and sort them.
create or replace view ticket_of_journal as
    select j.bridge, e.journal, e.number as ticket, case e.kind when 'second' then 'pair' else 'preset' end as kind, e.plate, p.number as first,
        e.moment as at, greatest(e.gross_kg, p.gross_kg) as gross_kg, coalesce(e.preset_kg, least(e.gross_kg, p.gross_kg)) as tare_kg,
        coalesce(e.gross_kg - e.preset_kg, abs(e.gross_kg - p.gross_kg)) as net_kg, p.gross_kg > e.gross_kg as brought
    from entry e join journal j using (journal) left join lateral (
        select o.number, o.kind, o.gross_kg from journal_year y cross join lateral (
            select o.journal, o.number, o.kind, o.gross_kg from entry o
            where o.plate = e.plate and ((o.journal::bigint << 32) | o.number) < ((e.journal::bigint << 32) | e.number)
                and o.kind <> 'single' and o.year between y.since and y.until
            order by ((o.journal::bigint << 32) | o.number) desc limit 1) o
        where e.kind = 'second' and y.journal = e.journal and y.first < e.number and o.journal = e.journal and o.number >= y.begins
        order by y.first desc limit 1) p on p.kind = 'first'
    where e.kind = 'single' or p.kind = 'first';

create or replace view ticket_line as
    select bridge, journal, ticket, concat_ws(',', ticket, kind, plate, coalesce(first::text, ''), to_char(at at time zone 'UTC', 'YYYY-MM-DD HH24:MI:SS'),
        gross_kg, tare_kg, net_kg) as line
    from ticket_of_journal;

-- The last number of the former journal, up to which a follower's tickets were received before.
create or replace view received_before as
    select f.journal, greatest(s.sealed, (select max(last) from journal_year y where y.journal = f.former)) as number
    from follower f join standing s on s.journal = f.former;

-- Each ticket once: of a follower those that come behind the former journal, whose own were received first.
create or replace view ticket as
    select t.* from ticket_of_journal t left join received_before l on l.journal = t.journal where l.number is null or t.ticket > l.number;

-- Tickets of years whose plates were dropped.
create or replace view sealed_ticket as
    select j.bridge, e.journal, e.number as ticket, case e.kind when 'second' then 'pair' else 'preset' end as kind, e.partner as first, e.moment as at,
        greatest(e.gross_kg, p.gross_kg) as gross_kg, coalesce(e.preset_kg, least(e.gross_kg, p.gross_kg)) as tare_kg,
        coalesce(e.gross_kg - e.preset_kg, abs(e.gross_kg - p.gross_kg)) as net_kg, p.gross_kg > e.gross_kg as brought
    from sealed_entry e join journal j using (journal) left join sealed_entry p on p.journal = e.journal and p.number = e.partner
    where e.kind = 'single' or e.partner is not null;

-- The totals of a bridge's days in its own zone, from the tickets. They count the tickets, and add what was brought (the loaded vehicle came first), taken, and weighed
-- by a preset tare. The view below has the same from the sums that each load keeps.
create or replace view computed_day_total as
    select t.bridge, (t.at at time zone b.zone)::date as day, count(*) as tickets, sum(t.gross_kg) as gross_kg, sum(t.net_kg) as net_kg,
        coalesce(sum(t.net_kg) filter (where t.brought), 0) as brought_kg, coalesce(sum(t.net_kg) filter (where not t.brought), 0) as taken_kg,
        coalesce(sum(t.net_kg) filter (where t.kind = 'preset'), 0) as preset_kg
    from (
        select bridge, kind, at, gross_kg, net_kg, brought from ticket union all
        select s.bridge, s.kind, s.at, s.gross_kg, s.net_kg, s.brought from sealed_ticket s left join received_before l on l.journal = s.journal
        where l.number is null or s.ticket > l.number
    ) t join bridge b using (bridge) group by 1, 2;
create or replace view day_total as
    select bridge, day, tickets, gross_kg, net_kg, brought_kg, taken_kg, preset_kg from day_sum;
