-- Removes the records of this transaction.
create or replace function clear_handed() returns void language plpgsql as $$
begin
    if to_regclass(format('head_office.%I', landing_of(session_user))) is not null then
        execute format('delete from %I where within = pg_current_xact_id()', landing_of(session_user));
    end if;
end $$;

-- Takes the lock of the bridge, and finds out who loads what. Loads of a bridge run one at a time, so each sees what the one before stored. For a first load, `taken`
-- already has what `compare` would write, because nothing is stored yet.
create or replace function admit(of_bridge text, is_newest boolean, fetched timestamptz) returns taking language plpgsql as $$
declare
    it      taking;
    ends    timestamp := next_year();
    records text;
begin
    if not may_load(of_bridge) then
        perform refuse('login', format('%s hands nothing in for %s', session_user, of_bridge));
    end if;
    select bridge, retention_days, places into it.bridge, it.days, it.places from bridge where bridge = of_bridge;
    if not found then
        perform refuse('bridge', format('no bridge %s', of_bridge));
    elsif exists (select from bridge where bridge = of_bridge and retired_at <= now()) then
        perform refuse('bridge', format('%s was retired on %s: if it weighs again, UPDATE head_office.bridge SET retired_at = NULL', of_bridge, (select utc(retired_at) from bridge where bridge = of_bridge)));
    elsif fetched > now() + interval '5 minutes' then
        perform refuse('clock', format('fetched at %s, and here it is %s: set the clocks', fetched, date_trunc('second', now())));
    end if;
    perform lock_bridge(of_bridge);
    it.is_first := not exists (select from journal_year where journal = (select max(journal) from journal where bridge = of_bridge));
    -- reads the records of this transaction once, and only from the login's own table, each with its digest as bytes, if it is one
    records := format('(select number, key, kind, plate, moment, gross_kg, preset_kg, interval_kg, max_kg, serial, digest, previous, digest_in(digest) as own '
        'from %I where within = pg_current_xact_id() offset 0) h', landing_of(session_user));
    if it.is_first then
        execute format('create temporary table taken on commit drop as '
            'select h.*, year_of(moment, %L) as year, is_formed(own, previous, moment) as sound, false as known, false as differs, false as is_other, '
                'lag(number) over w as number_below, coalesce(lag(number) over w = number - 1, false) as is_next, lag(digest) over w as below, lag(previous) over w as below_previous '
            'from %s window w as (order by number)', ends, records);
    else
        execute format('create temporary table taken on commit drop as select h.*, year_of(moment, %L) as year from %s', ends, records);
    end if;
    it.is_newest := is_newest;
    it.fetched := fetched;
    return it;
end $$;

-- Whether a record fits its digest. No service writes a previous digest of another form, or a part of a second.
create or replace function is_sound(it at_hand) returns boolean stable
    return encode(digest_of(it.number, it.key, it.kind, it.plate, it.moment, it.gross_kg, it.preset_kg, it.interval_kg, it.max_kg, it.serial, it.previous), 'hex') = it.digest
        and coalesce(length(it.previous) = 64 and it.previous !~ '[^0-9a-f]', true) and it.moment = date_trunc('second', it.moment);

-- A digest of 64 hexadecimal digits; of any other text NULL.
create or replace function digest_in(it text) returns bytea immutable parallel safe
    return case when length(it) = 64 and it !~ '[^0-9a-f]' then decode(it, 'hex') end;

-- Whether digests and moment have their form.
create or replace function is_formed(own bytea, previous text, moment timestamp) returns boolean immutable parallel safe
    return own is not null and (previous is null or digest_in(previous) is not null) and moment = date_trunc('second', moment);

-- Refuses what can't be of this bridge.
create or replace function refuse_others(it taking) returns void language plpgsql as $$
declare
    other record;
begin
    select r.serial, r.moment, (select i.bridge from instrument i where i.serial = r.serial and r.moment at time zone 'UTC' >= i.since and r.moment at time zone 'UTC' < i.until) as bridge
    into other from taken r
    where not exists (select from instrument i where i.bridge = it.bridge and i.serial = r.serial and r.moment at time zone 'UTC' >= i.since and r.moment at time zone 'UTC' < i.until)
        and is_sound((r.number, r.key, r.kind, r.plate, r.moment, r.gross_kg, r.preset_kg, r.interval_kg, r.max_kg, r.serial, r.digest, r.previous)::at_hand) limit 1;
    if other.serial is not null then
        perform refuse('serial', format('serial %s is %s', other.serial, coalesce('registered for ' || other.bridge, 'not registered')
            || case when exists (select from instrument i where i.serial = other.serial and isfinite(i.since) or isfinite(i.until)) then ' at ' || other.moment else '' end));
    elsif it.is_newest and exists (select from taken where previous is null) then
        perform refuse('form', 'entries of version 1 don''t name the entry before them, so nothing ties the newest to what is stored: load the whole export');
    end if;
end $$;

-- The journal of an export: the bridge's that has most of its records; else the newest one, if all of them come behind what it has. `offset 0` keeps a
-- look-up by the primary key what it is, whatever the statistics say. Years that are named leave the tables of others out of the plan.
create or replace function journal_of(it taking) returns integer language plpgsql as $$
declare
    its    integer;
    one    integer;
    many   bigint;
    most   bigint := 0;
    newest integer;
    last   bigint;
    years  record;
    beside record;
begin
    for one in select journal from journal where bridge = it.bridge order by journal desc loop
        years := years_of(one, it.lowest, it.highest);
        select count(*) into many from taken r cross join lateral (
            select from entry e where e.journal = one and e.number = r.number and e.digest = r.own and e.year between years.since and years.until offset 0) e;
        if many > most then
            its := one;
            most := many;
        end if;
    end loop;
    if its is not null then
        return its;
    end if;
    select max(journal) into newest from journal where bridge = it.bridge;
    select max(y.last) into last from journal_year y where y.journal = newest;
    if newest is not null and (it.lowest is null or last is null or it.lowest > last) then
        return newest;
    end if;
    -- the export has numbers of stored entries, and none of these entries: the journal was migrated or replaced, or it began again
    years := years_of(newest, it.lowest, last);
    select count(*) as many, min(moment) as since, count(*) filter (where is_other) as others, min(number) filter (where is_other) as first into beside
    from (
        select r.number, r.moment, (r.key, r.kind, r.plate, r.moment at time zone 'UTC', r.gross_kg, r.preset_kg, r.interval_kg, r.max_kg, r.serial)
            is distinct from (e.key, e.kind, e.plate, e.moment, e.gross_kg, e.preset_kg, e.interval_kg, e.max_kg, e.serial) as is_other
        from taken r cross join lateral (
            select * from entry e where e.journal = newest and e.number = r.number and e.year between years.since and years.until offset 0) e
        where is_sound((r.number, r.key, r.kind, r.plate, r.moment, r.gross_kg, r.preset_kg, r.interval_kg, r.max_kg, r.serial, r.digest,
            r.previous)::at_hand)) b;
    if it.is_newest then
        perform refuse('newest', format('a journal of %s that is not registered, or each of these entries was changed: load the whole export', it.bridge));
    elsif beside.many > 0 and beside.others = 0 then
        perform refuse('journal', format('a journal of %s that is not registered: its entries are those of journal %s with other digests; if it was brought over, register it as the follower', it.bridge, newest));
    elsif beside.since <= (
        select e.moment at time zone 'UTC' from entry e where e.journal = newest and e.number = last and e.year between years.since and years.until) then
        perform refuse('replaced', format('the journal of %s was replaced whole: none of its digests is one that is stored, and %s of %s entries differ in more, the first of them %s',
            it.bridge, beside.others, beside.many, beside.first));
    end if;
    perform refuse('journal', format('a journal of %s that is not registered', it.bridge));
end $$;

-- Of age: on a day greater than the day of the moment plus the days of retention, in UTC.
create or replace function is_of_age(moment timestamptz, days integer) returns boolean stable
    return coalesce((now() at time zone 'UTC')::date > (moment at time zone 'UTC')::date + days, true);

-- Whether a newer export was taken in before. Then this one may still have entries that are missing here. It doesn't say what came or went after it.
create or replace function is_overtaken(it taking) returns boolean immutable
    return coalesce(it.fetched < it.fetched_before, false);

-- Completes what a load is about. Refuses an export that was overtaken and has nothing that is missing here, one that doesn't reach what is stored, has no record, or
-- is cut.
create or replace function place(it taking) returns taking language plpgsql as $$
declare
    last record;
begin
    select min(number), max(number) into it.lowest, it.highest from taken;
    it.journal := journal_of(it);
    select sealed, fetched_at into it.sealed, it.fetched_before from standing where journal = it.journal;
    if it.sealed >= it.lowest then
        select min(number), max(number) into it.lowest, it.highest from taken where number > it.sealed;
    end if;
    select max(y.last) into it.stored from journal_year y where y.journal = it.journal;
    select y.since, y.until into it.since, it.until from journal_year y
    where y.journal = it.journal and (y.first < it.lowest or it.lowest is null) order by y.first desc limit 1;
    select number, moment into it.before, it.before_at from entry
    where journal = it.journal and year between it.since and it.until and (number < it.lowest or it.lowest is null) order by number desc limit 1;
    select * into it.since, it.until from years_of(it.journal, coalesce(it.before, it.lowest), it.highest);
    if is_overtaken(it) and (it.lowest is null or it.highest > coalesce(it.stored, 0) or not exists (
        select from taken r where r.number > it.sealed and not exists (
            select from entry e where e.journal = it.journal and e.number = r.number and e.year between it.since and it.until))) then
        perform refuse('older', format('this export was fetched at %s, and one of %s was loaded before', it.fetched, it.fetched_before));
    end if;
    if not exists (select from taken where previous is not null) and exists (
        select from entry e where e.journal = it.journal and e.number = it.lowest and e.year between it.since and it.until and e.previous is not null) then
        perform refuse('form', 'the column previous is missing, which this journal has');
    end if;
    if it.is_newest and coalesce(it.lowest > greatest(it.stored, it.sealed) + 1, true) then
        perform refuse('newest', format('the newest entries begin at %s, and what is stored ends at %s: load the whole export', coalesce(it.lowest::text, 'none'), coalesce(it.stored, 0)));
    end if;
    -- a follower begins behind what was purged of the former journal
    it.is_former := false;
    if it.before is null and exists (select from follower where journal = it.journal) then
        select true, e.number, e.moment into it.is_former, it.before, it.before_at from follower f join entry e on e.journal = f.former
        where f.journal = it.journal and (e.number < it.lowest or it.lowest is null) order by e.number desc limit 1;
        it.is_former := it.is_former is true;
    end if;
    if it.lowest is null and not is_of_age(it.before_at, it.days) then
        perform refuse('empty', format('the export has no record, and entries up to %s had to be kept: if the bridge goes on with a new file, register it', it.before));
    end if;
    select r.digest, r.previous, encode(digest_of(r.number, r.key, r.kind, r.plate, r.moment, r.gross_kg, r.preset_kg, r.interval_kg, r.max_kg, r.serial, r.previous), 'hex') as own,
        coalesce((select b.digest from taken b where b.number = it.highest - 1 limit 1), repeat('0', 64)) as below into last
    from taken r where r.number = it.highest limit 1;
    if length(last.previous) < 64 and starts_with(last.below, last.previous) or last.previous is null and length(last.digest) < 64 and starts_with(last.own, last.digest) then
        perform refuse('cut', 'the export is cut off in its last line');
    end if;
    return it;
end $$;

-- Compares each record with what is stored under its number, and with the record below it in the export. A record that is stored as it came is sound, because no
-- other is ever stored. The table's constraint judges a new one when it is stored.
create or replace function compare(it taking) returns void language plpgsql as $$
begin
    create temporary table found (what text not null, first bigint not null, last bigint not null, record text not null) on commit drop;
    if it.is_first and it.stored is null and it.sealed = 0 then
        alter table taken rename to compared;
        return;
    end if;
    create temporary table compared on commit drop as
    select r.number, r.key, r.kind, r.plate, r.moment, r.gross_kg, r.preset_kg, r.interval_kg, r.max_kg, r.serial, r.digest, r.previous, r.own, r.year,
        e.number is not null as known, e.digest <> r.own as differs, s.is_other,
        case when e.number is null then is_formed(r.own, r.previous, r.moment)
            when e.digest = r.own and not s.is_other and r.previous is not distinct from encode(e.previous, 'hex') then true
            else is_sound((r.number, r.key, r.kind, r.plate, r.moment, r.gross_kg, r.preset_kg, r.interval_kg, r.max_kg, r.serial, r.digest, r.previous)::at_hand) end as sound,
        lag(r.number) over w as number_below, coalesce(lag(r.number) over w = r.number - 1, false) as is_next, lag(r.digest) over w as below, lag(r.previous) over w as below_previous
    from (select * from taken where number > it.sealed offset 0) r
    left join lateral (select * from entry e where e.journal = it.journal and e.number = r.number and e.year between it.since and it.until offset 0) e on true
    cross join lateral (select e.number is not null and (e.key, e.kind, e.plate, e.moment, e.gross_kg, e.preset_kg, e.interval_kg, e.max_kg, e.serial)
        is distinct from (r.key, r.kind, r.plate, r.moment at time zone 'UTC', r.gross_kg, r.preset_kg, r.interval_kg, r.max_kg, r.serial) as is_other) s
    window w as (order by r.number);
end $$;
