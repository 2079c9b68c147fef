-- The differences between a follower and the former journal, from the follower's first entry to the former journal's last one. These are entries that differ in more
-- than their digests, and entries that one of the two lacks. There is none if the journal was migrated as it was. Entries that were past retention when the follower
-- was first loaded don't count, because they were purged.
create or replace view follower_difference as
    select f.bridge, f.journal, f.former, d.number, d.what, d.record, d.former_record
    from follower f
    join bridge b using (bridge)
    cross join lateral (select max(sealed) as number from standing s where s.journal in (f.journal, f.former)) s
    cross join lateral (select number, (received_at at time zone 'UTC')::date as day from entry where journal = f.journal order by number limit 1) a
    cross join lateral (select max(last) as number from journal_year y where y.journal = f.former having max(last) is not null) z
    cross join lateral (
        select coalesce(n.number, o.number) as number,
            case when o.number is null then 'put in' when n.number is null then 'left out' else 'altered' end as what,
            case when n.number is not null then line_of(n.number, n.key, n.kind, n.plate, n.moment at time zone 'UTC', n.gross_kg, n.preset_kg,
                n.interval_kg, n.max_kg, n.serial, encode(n.digest, 'hex'), encode(n.previous, 'hex')) end as record,
            case when o.number is not null then line_of(o.number, o.key, o.kind, o.plate, o.moment at time zone 'UTC', o.gross_kg, o.preset_kg,
                o.interval_kg, o.max_kg, o.serial, encode(o.digest, 'hex'), encode(o.previous, 'hex')) end as former_record
        from (select * from entry where journal = f.journal and number <= z.number and number > s.number) n
        full join (select * from entry where journal = f.former and number > s.number) o on o.number = n.number
        where case
            when o.number is null then true
            when n.number is null then o.number > a.number or a.day <= (o.moment at time zone 'UTC')::date + b.retention_days
            else (n.key, n.kind, n.plate, n.moment, n.gross_kg, n.preset_kg, n.interval_kg, n.max_kg, n.serial)
                is distinct from (o.key, o.kind, o.plate, o.moment, o.gross_kg, o.preset_kg, o.interval_kg, o.max_kg, o.serial) end
    ) d;

-- Each finding with what is stored here under its number, the advice, who acknowledged it, and whether a later load made up for it. A follower's finding is shown
-- with the former journal's entry, even if the follower had none.
create or replace view finding_beside_stored as
    select f.finding, j.bridge, j.journal, f.what, f.first, f.last, case when f.first > 0 then concat_ws('-', f.first, nullif(f.last, f.first)) end as numbers,
        f.record, f.at, case when e.number is not null then line_of(e.number, e.key, e.kind, e.plate, e.moment at time zone 'UTC', e.gross_kg,
            e.preset_kg, e.interval_kg, e.max_kg, e.serial, encode(e.digest, 'hex'), encode(e.previous, 'hex')) end as stored,
        a.means, a.to_do, a.rank, k.at as acknowledged_at, k.by as acknowledged_by, k.note,
        f.what = 'not loaded' and coalesce(f.at < m.at, false) as is_made_up
    from finding f join journal j using (journal) join advice a using (what) left join follower l on l.journal = f.journal
    left join acknowledgement k on k.finding = f.finding left join last_load m on m.bridge = j.bridge
    left join lateral (
        select e.* from journal_year y cross join lateral (
            select * from entry e where e.journal = y.journal and e.number = f.first and e.year between y.since and y.until offset 0) e
        where f.first between y.first and y.last and y.journal = case when f.what in ('altered', 'left out', 'put in') or f.what = 'early' and not exists (
            select from journal_year n where n.journal = f.journal and f.first between n.first and n.last) then coalesce(l.former, f.journal) else f.journal end
        limit 1) e on true;

create or replace view open_finding as
    select finding, bridge, journal, what, numbers, record, stored, at, means, to_do, rank from finding_beside_stored where acknowledged_at is null and not is_made_up;

-- When each bridge's newest journal was heard of last, and whether it fell silent; when its last whole export was loaded, and whether the next is overdue. A bridge
-- that is retired isn't missed.
-- `apart` is by how much the bridge's clock was ahead of this server's at that load.
create or replace view heard as
    select b.bridge, l.journal, l.at as loaded, e.number, e.moment as newest, coalesce(b.retired_at > now(), true) and coalesce(now() - l.at > b.load_within, true) as is_silent,
        coalesce(b.retired_at > now(), true) and coalesce(now() - e.moment > b.entry_within, e.moment is null and b.entry_within is not null) as is_idle,
        s.whole_at as whole, coalesce(b.retired_at > now(), true) and l.journal is not null and coalesce(now() - s.whole_at > b.whole_within, true) as is_overdue, l.apart
    from bridge b
    left join lateral (
        select l.* from load l where l.journal = (select max(j.journal) from journal j where j.bridge = b.bridge) order by l.load desc limit 1) l on true
    left join lateral (
        select e.number, e.moment from (select * from journal_year y where y.journal = l.journal order by y.last desc limit 1) y
        cross join lateral (select e.number, e.moment from entry e where e.journal = y.journal and e.year = y.year and e.number = y.last offset 0) e) e on true
    left join standing s on s.journal = l.journal;

-- The tickets of a haulier, with the day of the bridge's own zone, on the days for which the plate is registered for him. The view looks up his plates one by one. By a condition that they are equal, PostgreSQL may read the
-- entries of all plates from the first one to his.
create or replace view haulier_ticket as
    select h.haulier, t.bridge, t.ticket, t.kind, t.plate, t.first, t.at, (t.at at time zone b.zone)::date as day, t.gross_kg, t.tare_kg, t.net_kg, t.brought
    from haulier h join ticket t on t.plate = any (array[h.plate]) join bridge b using (bridge)
    where (t.at at time zone b.zone)::date >= h.since and (t.at at time zone b.zone)::date < h.until;

-- Loaders of each bridge, how many connections each may open (-1 is all), and how large its temporary files may be.
create or replace view loader_login as
    select l.login, l.bridge, r.rolname is not null as is_there, r.rolcanlogin as may_log_in, r.rolconnlimit as connections, (
        select split_part(c, '=', 2) from pg_catalog.pg_db_role_setting s cross join unnest(s.setconfig) c
        where s.setrole = r.oid and s.setdatabase in (0, (select oid from pg_catalog.pg_database where datname = current_database())) and starts_with(c, 'temp_file_limit=')
        order by s.setdatabase desc limit 1) as temp_file_limit
    from loader l left join pg_catalog.pg_roles r on r.rolname = l.login;

-- Stored entries that the bridge's own check would refuse. There is none, unless this cluster's own files were changed. A restore asks this.
create or replace view unsound_entry as
    select j.bridge, j.journal, e.number
    from entry e join journal j using (journal)
    where e.digest <> digest_of(number, key, kind, plate, moment at time zone 'UTC', gross_kg, preset_kg, interval_kg, max_kg, serial,
        encode(previous, 'hex'));

-- Stored entries that don't hold the digest of the one before, although that one is stored here. There is none, unless a finding says why, or this cluster's own files
-- were changed and digests computed again. An entry may hold zeros if the one before was past retention by then, and purged.
create or replace view unchained_entry as
    select j.bridge, j.journal, e.number
    from entry e join entry o on o.journal = e.journal and o.number = e.number - 1 join journal j on j.journal = e.journal join bridge b using (bridge)
    where e.previous <> o.digest and (e.previous <> decode(repeat('00', 32), 'hex')
        or (e.moment at time zone 'UTC')::date <= (o.moment at time zone 'UTC')::date + b.retention_days);
