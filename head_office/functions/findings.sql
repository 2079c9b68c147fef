-- Finds faults of the export, compared with what was stored before it.
create or replace function find_in_export(it taking) returns void language plpgsql as $$
declare
    its_former integer := (select former from follower where journal = it.journal);
    years      record := years_of(its_former, 1, it.highest);
begin
    insert into found
    select 'unsound', number, number, line_of(number, key, kind, plate, moment, gross_kg, preset_kg, interval_kg, max_kg, serial, digest, previous)
    from compared where not sound;

    -- one for a run: the entry that differs in more than its digests, with those behind it that differ only in these
    insert into found
    select 'differs', number, last, line_of(number, key, kind, plate, moment, gross_kg, preset_kg, interval_kg, max_kg, serial, digest, previous)
    from (
        select *, row_number() over w as place, max(number) over (partition by island, part) as last
        from (
            select *, count(*) filter (where is_other) over (partition by island order by number) as part
            from (select *, number - row_number() over (order by number) as island from compared where sound and differs) i) p
        window w as (partition by island, part order by number)) d
    where place = 1;

    -- a new record and the one below it, in the export or stored; the export's own may have been changed since
    insert into found
    select 'unchained', r.number, r.number, format('previous %s, after %s', coalesce(r.previous, 'none'), coalesce(case when is_next then r.below end, encode(e.digest, 'hex'), 'none'))
    from compared r left join lateral (
        select e.number, e.digest, e.previous, e.moment from entry e
        where e.journal = it.journal and e.number = r.number - 1 and e.year between it.since and it.until
            and (not r.is_next or r.below is distinct from r.previous) offset 0) e on true
    where r.sound and not r.known and case
        when r.previous is null then r.is_next and r.below_previous is not null or e.previous is not null
        when r.is_next and r.previous = r.below or r.previous = encode(e.digest, 'hex') then false
        -- zeros: the journal has no entry below; the one that is stored here was past retention, and purged
        when r.previous = repeat('0', 64) then r.number > it.lowest or r.moment::date <= (e.moment at time zone 'UTC')::date + it.days
        else r.number = 1 or r.is_next or e.number is not null end;

    -- a record that comes late, and the stored one above it
    insert into found
    select 'unchained', e.number, e.number, format('previous %s, after %s', encode(e.previous, 'hex'), r.digest)
    from compared r cross join lateral (
        select e.number, e.previous, e.moment from entry e
        where e.journal = it.journal and e.number = r.number + 1 and e.year between it.since and it.until and e.previous <> r.own offset 0) e
    where r.sound and not r.known and r.number < it.stored and not exists (select from compared a where a.number = r.number + 1 and not a.known)
        and (e.previous <> decode(repeat('00', 32), 'hex') or (e.moment at time zone 'UTC')::date <= r.moment::date + it.days);

    insert into found
    select case when s.many > 0 then 'missing' else 'unseen' end, g.a, g.z, format('%s of them stored then', s.many)
    from (select coalesce(number_below, it.before, it.sealed) + 1 as a, number - 1 as z from compared) g
    cross join lateral (
        select count(*) as many from entry e where e.journal = it.journal and e.number between g.a and g.z and e.year between it.since and it.until offset 0) s
    -- entries that only the former journal has are left out
    where g.a <= g.z and (s.many > 0 or not exists (
        select from entry o where o.journal = its_former and o.number between g.a and g.z and o.year between years.since and years.until));

    -- of the bridge's newest journal: an older export of a former one is no news
    insert into found
    select 'shorter', it.highest + 1, it.stored, 'stored, and the journal ends before'
    where it.stored > it.highest and not is_overtaken(it) and it.journal = (select max(journal) from journal where bridge = it.bridge);

    insert into found
    select 'clock', 0, 0, format('the bridge''s clock is %s %s', roughly(apart_now()), case when apart_now() > interval '0' then 'ahead' else 'behind' end)
    where abs(extract(epoch from apart_now())) > 120;

    insert into found
    select 'early', it.before, it.before, format('gone with all before, and kept for %s days', it.days)
    where not it.is_newest and not is_overtaken(it) and not it.is_former and it.before is not null and not is_of_age(it.before_at, it.days);

    -- places: one for an entry, and one more for an open First
    insert into found
    select 'nearly full', 0, it.highest, format('%s of %s places are taken', taken, it.places)
    from (select count(*) + count(*) filter (where kind = 'first') - count(*) filter (where kind in ('second', 'void')) as taken from compared) t
    where not it.is_newest and not is_overtaken(it) and taken > it.places * 0.9 and not exists (
        select from finding f left join acknowledgement a using (finding)
        where f.journal = it.journal and f.what = 'nearly full' and coalesce(a.at > now() - interval '30 days', true));
end $$;

-- By how much the bridge's clock is ahead of this server's, as `load.sql` noted it in this transaction.
create or replace function apart_now() returns interval stable language sql as
$$ select nullif(current_setting('head_office.apart', true), '')::interval $$;

-- A duration in its largest unit, so that a clock that drifts slowly isn't a new finding at each load.
create or replace function roughly(it interval) returns text immutable language sql as $$
    select case when s >= 172800 then s / 86400 || ' days' when s >= 7200 then s / 3600 || ' hours' else s / 60 || ' minutes' end
    from (select abs(extract(epoch from it))::bigint as s) a
$$;

-- By how much the bridge's clock was put back since the last load of a journal. An entry of the time between may be dated earlier by that. Nothing, if it isn't known.
create or replace function put_back(its integer) returns interval stable language sql as $$
    select greatest(coalesce((select apart from load where journal = its order by load desc limit 1) - apart_now(), interval '0'), interval '0')
$$;

-- Finds faults of single entries, and of an entry compared with the sound one below it.
create or replace function find_in_entries(it taking) returns void language plpgsql as $$
declare
    years record := years_of(it.journal, 1, 4294967295);
    back  interval := put_back(it.journal);
begin
    with below as (
        select * from (
            select number, known, moment, interval_kg, max_kg, serial, coalesce(lag(moment) over w, it.before_at at time zone 'UTC') as former,
                lag(interval_kg) over w as former_interval, lag(max_kg) over w as former_max, lag(serial) over w as former_serial
            from compared where sound window w as (order by number)) b
        where moment < former or not known and (interval_kg, max_kg, serial) is distinct from (former_interval, former_max, former_serial)
    )
    insert into found
    select 'falls', number, number, format('%s, after %s', moment, former) from below where moment < former
    union all
    select 'setup', n.number, n.number, format('e %s kg, Max %s kg, serial %s; before e %s kg, Max %s kg, serial %s',
        n.interval_kg, n.max_kg, n.serial, b.interval_kg, b.max_kg, b.serial)
    from (select * from below where not known) n
    left join lateral (
        select e.interval_kg, e.max_kg, e.serial from entry e
        where n.former_max is null and e.journal = it.journal and e.number = it.before and e.year between it.since and it.until offset 0) e on true
    cross join lateral (
        select coalesce(n.former_interval, e.interval_kg) as interval_kg, coalesce(n.former_max, e.max_kg) as max_kg, coalesce(n.former_serial, e.serial) as serial) b
    where (n.interval_kg, n.max_kg, n.serial) <> (b.interval_kg, b.max_kg, b.serial);

    -- one for a run of them
    insert into found
    select what, min(number), max(number), min(moment)::text
    from (
        select what, number, moment, number - row_number() over (partition by what order by number) as run
        from (
            select number, moment, case when moment > least(it.fetched, now()) at time zone 'UTC' + interval '5 minutes' then 'ahead'
                when number > coalesce(it.stored, 0) and moment < it.fetched_before at time zone 'UTC' - interval '1 minute' - back
                    -- others had its number when those exports came
                    and not exists (select from set_aside_entry s where s.journal = it.journal and s.number = c.number) then 'dated back' end as what
            from compared c where sound and not known) n
        where what is not null) r
    group by what, run;

    insert into found
    select 'out of range', number, number, case when gross_kg % interval_kg <> 0 then format('gross %s kg is no multiple of e %s kg', gross_kg, interval_kg)
        when gross_kg > max_kg + 9 * interval_kg then format('gross %s kg is above Max %s kg + 9 e', gross_kg, max_kg)
        else format('preset tare %s kg is not below the gross of %s kg', preset_kg, gross_kg) end
    from compared where sound and not known and (gross_kg % interval_kg <> 0 or gross_kg > max_kg + 9 * interval_kg or preset_kg >= gross_kg);

    insert into found
    select case kind when 'first' then 'open twice' else 'unpaired' end, number, number,
        case kind when 'first' then format('first of %s, which has number %s open', plate, former_number) else format('%s of %s', kind, plate) end
    from paired where kind <> 'single' and (kind = 'first') = (coalesce(former_kind, '') = 'first');

    -- among the new ones, and against those that are stored: only the index on the key's hash serves that, because reading the whole journal takes too long
    insert into found
    select 'key again', n.number, n.number, format('key %s of number %s', n.key, n.other)
    from (select number, key, coalesce(lag(number) over w, lead(number) over w) as other from compared
        where sound and not known and key in (select key from compared where sound and not known group by key having count(*) > 1) window w as (partition by key order by number)) n
    union
    select 'key again', n.number, n.number, format('key %s of number %s', n.key, o.number)
    from compared n cross join lateral (
        select o.number from entry o
        where it.stored is not null and ((o.journal::bigint << 32) | (hashtextextended(o.key, 0) & 4294967295)) = ((it.journal::bigint << 32) | (hashtextextended(n.key, 0) & 4294967295))
            and o.key = n.key and o.journal + 0 = it.journal and o.number <> n.number and o.year between years.since and years.until
        limit 1) o
    where n.sound and not n.known;
end $$;

-- Finds faults of the journal compared with others. The first entry of a first load may be in another journal, too. A follower is compared with the former journal
-- by a whole export. Entries that are left out in a row are one finding.
create or replace function find_in_journals(it taking) returns void language plpgsql as $$
begin
    if it.stored is null then
        insert into found
        select case when e.digest = n.own then 'two names' else 'no follower' end, n.number, n.number, format('journal %s of %s has this entry%s', j.journal, j.bridge, case when e.digest <> n.own then ' with another digest' end)
        from (select * from compared where sound and number = it.lowest limit 1) n cross join journal j cross join lateral (
            select e.digest from entry e where e.journal = j.journal and e.number = n.number and (e.digest = n.own or e.key = n.key and e.moment = n.moment at time zone 'UTC') offset 0) e
        where j.journal <> it.journal and (e.digest = n.own
            or j.bridge = it.bridge and not exists (select from follower f where f.journal = it.journal));
    end if;

    if not it.is_newest and exists (select from follower where journal = it.journal) then
        insert into found
        select what, min(number), max(number), coalesce(min(record), format('%s of them stored of the former journal', count(*)))
        from (select what, number, record, number - case when record is null then row_number() over (partition by what order by number) else 0 end as run
            from follower_difference where journal = it.journal) d
        group by what, run;
    end if;
end $$;

-- Writes the findings, the first hundred by what matters and how many more, as far as the bridge has room for them today, and the load. Says how it went, and of each of the first twenty new findings
-- the record and what is stored here under its number.
create or replace function write_load(it taking, added bigint) returns setof text language plpgsql as $$
declare
    done    load;
    one     record;
    fresh   bigint;
    written bigint;
begin
    with ranked as (
        select f.what, f.first, f.last, f.record, row_number() over (order by a.rank, f.first, f.last) as place from found f join advice a using (what)
    ), capped as (
        select what, first, last, record, place from ranked where place <= 100
        union all
        select 'more', 0, 0, format('%s more findings: %s', sum(many), string_agg(format('%s %s', what, many), ', ' order by what)), 101
        from (select what, count(*) as many from ranked where place > 100 group by what) m having count(*) > 0
    ), fresh as (
        select what, first, last, record, place, row_number() over (order by place) as nth, row_number() over (partition by what order by place) as nth_of_kind
        from capped c where not exists (
            select from finding f where f.journal = it.journal and f.what = c.what and f.first = c.first and f.last = c.last and sha256_of(f.record) = sha256_of(c.record))
    ), lately as (
        select what, many from found_lately(it.bridge)
    ), new as (
        insert into finding (journal, what, first, last, record)
        select it.journal, what, first, last, record from fresh f
        where nth + coalesce((select sum(many) from lately), 0) <= 500 or nth_of_kind + coalesce((select many from lately l where l.what = f.what), 0) <= 10
        order by place on conflict do nothing returning 1
    )
    select count(*), (select count(*) from fresh) into written, fresh from new;
    if written < fresh then
        written := written + write_past(it.bridge, it.journal);
    end if;
    insert into load (journal, records, last, added, findings, new_findings, is_newest, fetched_at, apart)
    select it.journal, (select count(*) from compared), it.highest, added, (select count(*) from found), written, it.is_newest, it.fetched, apart_now()
    returning * into done;
    perform write_receipt(it, done.load);
    update standing set fetched_at = greatest(fetched_at, it.fetched), whole_at = case when it.is_newest then whole_at else greatest(whole_at, it.fetched, case when it.fetched is null then now() end) end
    where journal = it.journal;
    return next format('%s: records %s, added %s, findings %s, new %s', it.bridge, done.records, done.added, done.findings, done.new_findings);
    if done.new_findings = 0 then
        return;
    end if;
    for one in
        select * from finding_beside_stored f where f.journal = it.journal and f.at = now() order by f.finding limit 20
    loop
        return next format('%s%s: %s', one.what, ' ' || one.numbers, one.record);
        if one.stored is not null then
            return next format('  %s: %s', case when one.what in ('altered', 'left out') then 'in the former journal' else 'stored here' end, one.stored);
        end if;
        if one.what = 'differs' and one.last > one.first then
            return next format('  and %s behind it in their digests alone', one.last - one.first);
        end if;
        return next format('  %s', one.to_do);
    end loop;
end $$;
