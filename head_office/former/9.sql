-- Each login has a table of its own for the records of its loads. So what it leaves there slows down no other load, and takes no more of the disk than
-- `keep_handed_small` allows. `handed` becomes the partitioned table over these, so bridges of every version load as before.

-- A record stays only until the end of its transaction, so nothing is kept of the former table.
drop function if exists is_sound(at_hand);
drop view if exists at_hand;
alter table handed rename to handed_before;
create table handed (like handed_before including defaults including constraints) partition by list (login);
drop table handed_before;

-- A record as it came.
create type at_hand as (number bigint, key text collate "C", kind text collate "C", plate text collate "C", moment timestamp, gross_kg integer,
    preset_kg integer, interval_kg integer, max_kg integer, serial text collate "C", digest text collate "C", previous text collate "C");

-- The findings of a day are counted.
create index finding_by_time on finding (journal, at);
-- A bridge's journals and its newest one, found without reading those of all bridges.
create index journal_by_bridge on journal (bridge, journal);

-- Connections of loaders that the guard ended, and why.
create table ended_connection (
    ended bigint generated always as identity primary key,
    at    timestamptz not null default now(),
    login name not null,
    pid   integer not null,
    why   text not null
);
create index ended_connection_by_login on ended_connection (login, at);

-- When the guard ran last.
create table guard_run (
    is_one boolean primary key default true,
    at     timestamptz not null,
    constraint one_row check (is_one)
);

insert into version values (9);
