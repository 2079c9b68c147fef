-- Breaks a load off. Its caller writes the reason down.
create or replace function refuse(reason text, why text) returns void language plpgsql as
$$ begin raise exception '%', why using errcode = 'HO001', hint = reason; end $$;

create or replace function may_load(of_bridge text) returns boolean stable
    return exists (select from loader l where l.login = session_user and coalesce(l.bridge, of_bridge) = of_bridge);

-- When a load of each bridge was last taken in.
create or replace view last_load as
    select j.bridge, max(l.at) as at from journal j cross join lateral (select at from load l where l.journal = j.journal order by load desc limit 1) l group by 1;

-- The findings of a bridge in the last 24 hours, by kind. Past 500 of them, only the first ten of each kind are written. So a journal or login in wrong hands
-- neither fills the table nor hides another kind.
create or replace function found_lately(of_bridge text) returns table (what text, many bigint) stable language sql as $$
    select f.what, count(*) from journal j join finding f using (journal) where j.bridge = of_bridge and f.at > now() - interval '1 day' group by 1
$$;
create or replace function has_room(of_bridge text, for_what text) returns boolean stable language sql as $$
    select coalesce(sum(many), 0) < 500 or coalesce(sum(many) filter (where what = for_what), 0) < 10 from found_lately(of_bridge)
$$;

-- Writes that more was found than is written, once in 24 hours. Returns how many findings that made.
create or replace function write_past(of_bridge text, its integer) returns bigint language plpgsql as $$
declare
    many bigint;
begin
    insert into finding (journal, what, first, last, record)
    select its, 'more', 0, 0, format('past 500 findings of a bridge in 24 hours, the first ten of each kind are written, from %s on', utc(now()))
    where not exists (
        select from finding f join journal j using (journal)
        where j.bridge = of_bridge and f.what = 'more' and f.at > now() - interval '1 day' and starts_with(f.record, 'past 500 findings'))
    on conflict do nothing;
    get diagnostics many = row_count;
    return many;
end $$;

-- Writes a refused load down, and as a finding unless an open one says the same. A login has at most a hundred refusals a day of each reason at a bridge, so that
-- none hides another. Past that, a new finding is still written, unless the next load makes up for it, or the loader chose the words. A reason that the next load
-- makes up for has only one open finding. Returns the line about it, even if a lock prevents writing it down.
create or replace function write_refusal(of_bridge text, because text, told text, fetched timestamptz) returns text language plpgsql set lock_timeout = '5s' as $$
declare
    said       text := left(regexp_replace(left(told, 500), '[^ -~]', '?', 'g'), 500);
    named      text := left(regexp_replace(left(of_bridge, 32), '[^ -~]', '?', 'g'), 32);
    is_passing boolean := because in ('older', 'newest', 'waited', 'unreachable');
    kind       text := case when because = 'replaced' then 'replaced' when is_passing then 'not loaded' else 'refused' end;
    is_full    boolean;
    new_of     integer;
    its        bigint;
begin
    -- a name that nobody registered, or of another's bridge, makes no more of them
    select count(*) = 100 into is_full from (
        select from refusal where by = session_user and at > now() - interval '1 day' and reason = because
            and (bridge = named or because = 'login' or not exists (select from bridge b where b.bridge = named)) limit 100) r;
    select max(j.journal) into new_of from journal j
    where j.bridge = named and not exists (
        select from finding f join journal n using (journal) join refusal r on r.refusal = f.last
        where n.bridge = named and f.what in ('refused', 'replaced', 'not loaded') and case when is_passing then f.what = 'not loaded' and r.reason = because and f.at > coalesce((select at from last_load l where l.bridge = named), '-infinity')
            else f.what in ('refused', 'replaced') and f.record = said end and not exists (select from acknowledgement a where a.finding = f.finding));
    if new_of is not null and not has_room(named, kind) then
        perform write_past(named, new_of);
        new_of := null;
    end if;
    if not is_full or new_of is not null and not is_passing and because not in ('cut', 'form', 'listener') then
        insert into refusal (bridge, reason, why, fetched_at) values (named, because, said, fetched) returning refusal into its;
        insert into finding (journal, what, first, last, record)
        select new_of, kind, 0, its, said where new_of is not null;
    end if;
    return format('%s: refused: %s', named, said);
exception when lock_not_available or deadlock_detected then
    return format('%s: refused: %s', named, said);
end $$;

-- Notes a refusal of the program `load`, which had no export to load.
create or replace function note_refusal(of_bridge text, because text, told text, fetched timestamptz default null) returns text
language plpgsql security definer set search_path = head_office, pg_temp as $$
begin
    if because not in ('cut', 'form', 'listener', 'unreachable') then
        raise exception 'refused: % is none of the reasons of load', because;
    end if;
    of_bridge := named_now(of_bridge);
    if not may_load(of_bridge) then
        return write_refusal(of_bridge, 'login', format('%s hands nothing in for %s', session_user, of_bridge), fetched);
    end if;
    return write_refusal(of_bridge, because, told, fetched);
end $$;

-- Whether the next export of a bridge has to be a whole one: none of its newest journal was loaded for too long.
create or replace function wants_whole(of_bridge text) returns boolean stable language sql security definer set search_path = head_office, pg_temp as $$
    select not may_load(named_now(of_bridge)) or coalesce((
        select s.whole_at < now() - b.whole_within from bridge b join journal j using (bridge) join standing s using (journal)
        where b.bridge = named_now(of_bridge) order by j.journal desc limit 1), true)
$$;
