-- Each year has a table of its own. Earlier entries stay in their table, which becomes `entry_before`, one of them, without being written again.

alter table entry rename to entry_before;
alter table entry_before rename constraint entry_pkey to entry_before_pkey;
alter index entry_by_plate rename to entry_before_by_plate;
alter index entry_by_key rename to entry_before_by_key;
alter index entry_by_moment rename to entry_before_by_moment;
drop trigger never_changed on entry_before;

alter table entry_before add column year integer not null default 0;
create table entry (like entry_before including defaults including constraints) partition by list (year);
alter table entry alter column year drop default;
create index entry_by_plate on entry (plate, ((journal::bigint << 32) | number));
create index entry_by_key on entry (((journal::bigint << 32) | (hashtextextended(key, 0) & 4294967295)));
create index entry_by_moment on entry using brin (moment) with (pages_per_range = 32);
alter table entry_before add constraint of_year check (year = 0);
alter table entry attach partition entry_before for values in (0);
create trigger never_changed before update or delete or truncate on entry for each statement execute function never_changed();
create trigger never_changed before insert or update or delete or truncate on entry_before for each statement execute function never_changed();

create table journal_year (
    journal     integer not null references journal,
    year        integer not null,
    first       bigint not null,
    last        bigint not null,
    entries     bigint not null,
    received_at timestamptz not null,
    begins      bigint not null,
    since       integer not null,
    until       integer not null,
    primary key (journal, year)
) with (fillfactor = 10);
create index journal_year_by_first on journal_year (journal, first);
insert into journal_year (journal, year, first, last, entries, received_at, begins, since, until)
select journal, 0, min(number), max(number), count(*), max(received_at), min(number), 0, 0 from entry_before group by journal;

alter type taking add attribute since integer, add attribute until integer;

-- functions/ makes it with another parameter
drop function if exists pair(taking);

insert into version values (8);
