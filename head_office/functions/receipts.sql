-- Receipts, and the check of the office itself. A receipt says what a load added, and the bridge keeps it. So a bridge notices that the office was restored from an
-- older copy, or that a receipt was changed. The check computes each receipt again, so it notices that entries were changed, removed or added.

-- Writes the receipt of a load. A load that adds nothing has none, unless its journal has none yet.
create or replace function write_receipt(it taking, its_load bigint) returns void language plpgsql as $$
declare
    former receipt;
begin
    select * into former from receipt where journal = it.journal order by receipt desc limit 1;
    if former.receipt is null then
        insert into receipt (journal, receipt, load, numbers, entries, digest)
        select it.journal, 1, its_load, range_agg(int8range(number, number, '[]')), count(*), chained(null, string_agg(digest, ''::bytea order by number))
        from entry where journal = it.journal and number > it.sealed having count(*) > 0;
    else
        insert into receipt (journal, receipt, load, numbers, entries, digest)
        select it.journal, former.receipt + 1, its_load, range_agg(int8range(number, number, '[]')), count(*),
            chained(former.digest, string_agg(own, ''::bytea order by number))
        from compared where sound and not known having count(*) > 0;
    end if;
end $$;

create or replace function chained(former bytea, digests bytea) returns bytea immutable parallel safe
    return sha256(coalesce(former, decode(repeat('00', 32), 'hex')) || coalesce(digests, ''::bytea));

-- The newest receipt of the journal of this transaction's load, as the bridge keeps it: the journal, the receipt's number and its digest.
create or replace function receipt_of_load(of_bridge text) returns text stable language sql security definer set search_path = head_office, pg_temp as $$
    select format('%s.%s.%s', r.journal, r.receipt, encode(r.digest, 'hex'))
    from load l join journal j using (journal) join receipt r using (journal)
    where j.bridge = named_now(of_bridge) and l.at = now() and l.by = session_user order by l.load desc, r.receipt desc limit 1
$$;

-- Writes a fault of the office down, unless an open one says the same.
create or replace function write_fault(kind text, of_bridge text, told text) returns boolean language plpgsql as $$
begin
    insert into office_fault (what, bridge, says)
    select kind, of_bridge, left(told, 500) where not exists (select from open_office_fault f where f.what = kind and f.says = left(told, 500));
    return found;
end $$;

create or replace view open_office_fault as
    select f.office_fault, f.at, f.what, f.bridge, f.says from office_fault f
    where not exists (select from office_fault_note n where n.office_fault = f.office_fault);

-- Refuses a load of a bridge that has a receipt which this office doesn't know. Returns the line about it, or nothing. It is a fault of the office, so the bridge
-- gets no finding. Past a hundred open faults of receipts, none is written.
create or replace function refuse_receipt(of_bridge text, given text) returns text language plpgsql security definer set search_path = head_office, pg_temp as $$
declare
    its    integer;
    nth    integer;
    newest receipt;
    said   text;
begin
    of_bridge := named_now(of_bridge);
    if not may_load(of_bridge) then
        return null;    -- begin_load says so
    elsif given !~ '^[0-9]{1,9}[.][0-9]{1,9}[.][0-9a-f]{64}$' then
        return format('%s: refused: the bridge''s receipt has another form: %s', of_bridge, regexp_replace(left(given, 100), '[^ -~]', '?', 'g'));
    end if;
    its := split_part(given, '.', 1)::integer;
    nth := split_part(given, '.', 2)::integer;
    select r.* into newest from receipt r join journal j using (journal) where j.bridge = of_bridge and r.journal = its order by r.receipt desc limit 1;
    if exists (select from receipt r where r.journal = newest.journal and r.receipt = nth and r.digest = decode(split_part(given, '.', 3), 'hex')) then
        return null;
    elsif exists (select from restored r where r.bridge = of_bridge and r.at > coalesce((select at from last_load l where l.bridge = of_bridge), '-infinity')) then
        return null;
    end if;
    said := case when newest.receipt is null then format('the bridge has receipt %s of journal %s, and this head office has no receipt of that journal', nth, its)
        when newest.receipt < nth then format('the bridge has receipt %s of journal %s, and the newest here is %s', nth, its, newest.receipt)
        else format('receipt %s of journal %s is another one at the bridge than here, where the newest is %s', nth, its, newest.receipt) end
        || ': this head office was restored from an older copy, or changed';
    if (select count(*) < 100 from open_office_fault where what = 'receipt') then
        perform write_fault('receipt', of_bridge, format('%s: %s', of_bridge, said));
    end if;
    return format('%s: refused: %s', of_bridge, said);
end $$;

-- Checks what was taken in since the last check, or all of it. Each receipt is computed again, and each of its entries is held against its digest. The whole check also
-- compares sums, open Firsts and sealed years with what the entries say, and looks for entries that no load took in. Returns a line for each open fault, and one at the
-- end. Entries of years whose plates were dropped have no digest any more, so their receipts are checked no further. A receipt also has its
-- entries that were set aside since, and not those that came later in their place.
create or replace function check_office(whole boolean) returns setof text
language plpgsql security definer set search_path = head_office, pg_temp set work_mem = '64MB' set jit = off as $$
declare
    one  record;
    done office_check;
begin
    if not pg_try_advisory_xact_lock(hashtext('head_office check')) then
        raise exception 'refused: another check is running';
    end if;
    create temporary table found_receipt on commit drop as
    select r.journal, j.bridge, r.receipt, r.at, r.numbers, r.entries, r.digest, f.digest as former, s.sealed,
        exists (select from set_aside_entry e where e.journal = r.journal and r.numbers @> e.number) as has_aside,
        r.receipt - coalesce(lag(r.receipt) over (partition by r.journal order by r.receipt), case when not whole then c.receipt end, 0) - 1 as missing
    from receipt r join journal j using (journal) join standing s using (journal) left join checked_receipt c using (journal)
    left join receipt f on f.journal = r.journal and f.receipt = r.receipt - 1
    where whole or r.receipt > coalesce(c.receipt, 0);
    insert into office_check (is_whole, receipts, entries, faults)
    select whole, count(*), coalesce(sum(entries), 0), 0 from found_receipt returning * into done;
    for one in
        select f.*, e.many, e.own, e.wrong, e.is_dropped
        from found_receipt f cross join lateral (
            select count(*) as many, chained(f.former, string_agg(e.digest, ''::bytea order by e.number)) as own, coalesce(bool_or(e.digest is null), false) as is_dropped,
                min(e.number) filter (where e.digest <> digest_of(e.number, e.key, e.kind, e.plate, e.moment at time zone 'UTC', e.gross_kg, e.preset_kg, e.interval_kg,
                    e.max_kg, e.serial, encode(e.previous, 'hex'))) as wrong
            from (
                select number, key, kind, plate, moment, gross_kg, preset_kg, interval_kg, max_kg, serial, digest, previous from entry e
                where e.journal = f.journal and e.number between greatest(lower(f.numbers), f.sealed + 1) and upper(f.numbers) - 1 and f.numbers @> e.number
                    and not (f.has_aside and exists (select from receipt n where n.journal = f.journal and n.receipt > f.receipt and n.numbers @> e.number))
                union all
                select number, key, kind, plate, moment, gross_kg, preset_kg, interval_kg, max_kg, serial, digest, previous from set_aside_entry s
                where f.has_aside and s.journal = f.journal and s.receipt = f.receipt) e) e
        order by f.journal, f.receipt
    loop
        if one.missing > 0 then
            perform write_fault('receipt', one.bridge, format('%s: %s receipts of journal %s are missing before receipt %s', one.bridge, one.missing, one.journal, one.receipt));
        end if;
        if one.wrong is not null then
            perform write_fault('entry', one.bridge, format('%s: entry %s of journal %s doesn''t fit its digest', one.bridge, one.wrong, one.journal));
        end if;
        if lower(one.numbers) > one.sealed and (one.own <> one.digest and not one.is_dropped or one.many <> one.entries) then
            perform write_fault('receipt', one.bridge, format('%s: of the %s entries that receipt %s of journal %s took in on %s, %s', one.bridge, one.entries, one.receipt,
                one.journal, utc(one.at), case when one.many <> one.entries then one.many || ' are here' else 'one has another digest' end));
        end if;
    end loop;
    for one in
        select j.bridge, c.journal, c.receipt - coalesce(max(r.receipt), 0) as missing, coalesce(max(r.receipt), 0) as newest
        from checked_receipt c join journal j using (journal) left join receipt r using (journal) group by j.bridge, c.journal, c.receipt having c.receipt > coalesce(max(r.receipt), 0)
    loop
        perform write_fault('receipt', one.bridge, format('%s: %s receipts of journal %s are missing after receipt %s', one.bridge, one.missing, one.journal, one.newest));
    end loop;
    if whole then
        for one in
            select j.bridge, e.journal, e.many - coalesce(n.many, 0) as more from (select journal, count(*) as many from entry e join standing s using (journal)
                where e.number > s.sealed group by 1) e join journal j using (journal) join lateral (
                select (select sum(upper(x) - lower(x)) from unnest(range_agg(r.numbers) * int8multirange(int8range(max(s.sealed) + 1, null))) x) as many
                from receipt r join standing s using (journal) where r.journal = e.journal having count(*) > 0) n on true
            where e.many > coalesce(n.many, 0)
        loop
            perform write_fault('entry', one.bridge, format('%s: no load took in %s entries of journal %s', one.bridge, one.more, one.journal));
        end loop;
        for one in select * from sum_difference order by bridge, what limit 100 loop
            perform write_fault('sum', one.bridge, format('%s: the sum, open First or year %s is kept as %s, and the entries say %s', one.bridge, one.what, one.kept, one.computed));
        end loop;
        for one in select * from unsound_year loop
            perform write_fault('year', one.bridge, format('%s: what is kept of %s in journal %s doesn''t fit its digest', one.bridge, one.year, one.journal));
        end loop;
    end if;
    insert into checked_receipt as c (journal, receipt) select journal, max(receipt) from found_receipt group by 1
    on conflict (journal) do update set receipt = greatest(c.receipt, excluded.receipt);
    update office_check c set faults = (select count(*) from open_office_fault) where c.office_check = done.office_check returning * into done;
    return query select format('office: fault %s: %s', f.office_fault, f.says) from open_office_fault f order by f.office_fault limit 100;
    return next format('office: %s receipts with %s entries checked, open faults %s', done.receipts, done.entries, done.faults);
end $$;
