-- The year in whose table an entry stands; `ends` is when the last year ends of which there can be one.
create or replace function year_of(moment timestamp, ends timestamp) returns integer immutable parallel safe
    return case when moment >= timestamp '2000-01-01' and moment < ends then date_part('year', moment)::integer else 9999 end;
create or replace function next_year() returns timestamp stable parallel safe
    return date_trunc('year', now() at time zone 'UTC' + interval '5 minutes') + interval '1 year';

create or replace function table_of(its integer) returns text immutable parallel safe
    return case its when 0 then 'entry_before' when 9999 then 'entry_misdated' else 'entry_' || its end;

-- Makes the table of a year, if there is none, and says whether there is one now. Nobody writes into it by its own name: a load does by that of all. Neither
-- loads nor readers wait meanwhile; of two that make a table one waits for the other, but not for a transaction that its login leaves open.
create or replace function make_year(its integer) returns boolean
language plpgsql security definer set search_path = head_office, pg_temp set lock_timeout = '10s' as $$
declare
    name text := table_of(its);
begin
    if to_regclass('head_office.' || name) is null then
        lock table only entry in share update exclusive mode;
    end if;
    if to_regclass('head_office.' || name) is null then
        execute format('create table %I (like entry including defaults including constraints, primary key (journal, number), '
            'constraint of_year check (year = %s))', name, its);
        if its < 9999 then
            execute format('alter table %I add constraint moment_of_year check (moment >= %L and moment < %L)', name,
                make_timestamptz(its, 1, 1, 0, 0, 0, 'UTC'), make_timestamptz(its + 1, 1, 1, 0, 0, 0, 'UTC'));
        end if;
        execute format('create trigger never_changed before insert or update or delete or truncate on %I for each statement '
            'execute function never_changed()', name);
        execute format('grant select on %I to head_office_registrar, head_office_reader', name);
        execute format('alter table entry attach partition %I for values in (%s)', name, its);
    end if;
    return true;
exception when lock_not_available then
    return false;
end $$;

-- Makes the tables of this year and the next one, so that the first load of a year needn't.
create or replace function make_years() returns boolean
    return make_year(date_part('year', now() at time zone 'UTC')::integer) and make_year(date_part('year', now() at time zone 'UTC')::integer + 1);

-- The years whose tables may have entries of a journal with these numbers.
create or replace function years_of(its integer, a bigint, z bigint, out since integer, out until integer) stable language sql as
$$ select min(y.since), max(y.until) from journal_year y where y.journal = its and y.first <= z and y.last >= a $$;

-- Years of which the numbers of one lie among those of another are looked through together.
create or replace function widen_years(its integer) returns void language plpgsql as $$
begin
    loop
        update journal_year y set begins = w.begins, since = w.since, until = w.until
        from (
            select a.year, min(b.begins) as begins, min(b.since) as since, max(b.until) as until
            from journal_year a join journal_year b on b.journal = a.journal and b.first <= a.last and b.last >= a.first
            where a.journal = its group by a.year) w
        where y.journal = its and y.year = w.year and (y.begins > w.begins or y.since > w.since or y.until < w.until);
        exit when not found;
    end loop;
end $$;

-- Computes the rows of a journal for each year again from its entries.
create or replace function rebuild_years(its integer) returns void language plpgsql as $$
begin
    delete from journal_year where journal = its;
    insert into journal_year (journal, year, first, last, entries, received_at, begins, since, until)
    select journal, year, first, last, entries, received_at, first, year, year from computed_journal_year where journal = its;
    perform widen_years(its);
end $$;
