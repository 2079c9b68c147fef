-- The tables of version 9: made in a new database, or brought to this version from an earlier one. `upgrade` runs this by sqitch. This file and those in
-- former/ stay as they are once they are released; what comes later is a change of its own in sqitch.plan.
--
-- A version is one transaction, with the functions if it is the newest. An office whose tables are of this version already isn't changed by this file.

\set change version_9
\ir ../upgrading/look.sql
-- a run that was broken off may have made it
\if :is_of_sqitch
\else
select case when :was between 1 and 7 then 'access exclusive' else 'share row exclusive' end as others_mode,
    case when :was < 9 then 'access exclusive' else 'share row exclusive' end as handed_mode \gset
\set altered 'bridge day_sum follower haulier instrument journal load loader restored'
\ir ../upgrading/begin.sql
-- or a run that ended meanwhile
\ir ../upgrading/look.sql
\if :is_of_sqitch
rollback;
\else
select :was = 0 as is_new, :was < 9 as is_older \gset
\if :is_new

-- Rights in the database and the schema. `head_office` owns everything, and nobody logs in as it. The others register bridges, load exports, and read.
create schema head_office authorization head_office;
select format('revoke all on database %I from public', current_database()) \gexec
select format('grant connect on database %I to head_office_registrar, head_office_loader, head_office_reader', current_database()) \gexec
select format('grant temporary on database %I to head_office', current_database()) \gexec
set local role head_office;
set local search_path = head_office;
alter default privileges for role head_office revoke execute on functions from public;

\ir ../functions/of_tables.sql

create table version (
    version integer primary key,
    at      timestamptz not null default now()
);

-- When the functions were made last, by the SHA-256 of their files. A row for each file that a package before sqitch ran, too.
create table applied_file (
    name   text primary key,
    sha256 text not null,
    at     timestamptz not null default now(),
    constraint form_of_sha256 check (sha256 ~ '^[0-9a-f]{64}$')
);

-- B2 before B10
create collation natural_order (provider = icu, locale = 'en-u-kn-true');

-- Registered -----------------------------------------------------------------------------------------------------------------------------

create table bridge (
    bridge         text collate "C" primary key check (bridge ~ '^[A-Za-z0-9-]{1,32}$'),
    -- whose days the totals are of
    zone           text not null default 'UTC' check (timestamptz 'epoch' at time zone zone is not null),
    -- the service's --retention
    retention_days integer not null check (retention_days between 1 and 3650),
    -- after this time without a load, or without a new entry, the bridge has fallen silent
    load_within    interval not null default '3 hours' check (load_within > interval '0'),
    entry_within   interval check (entry_within > interval '0'),
    -- the service's --capacity
    places         integer,
    -- how old the last whole export may be before the next load must be a whole one
    whole_within   interval not null default '7 days',
    -- after this number of whole years plates are dropped; NULL for never
    plate_years    integer,
    constraint places_of_a_journal check (places between 2 and 100000),
    constraint whole_within_is_positive check (whole_within > interval '0'),
    constraint plate_years_is_positive check (plate_years >= 1)
);

-- An instrument belongs to one bridge: that is how another bridge's export is recognized.
create table instrument (
    serial text collate "C" primary key check (serial ~ '^[A-Z0-9]{1,16}$'),
    bridge text collate "C" not null references bridge
);

-- A bridge that continues with a new file begins at number 1 again, so each file is a journal of its own.
create table journal (
    journal integer generated always as identity primary key,
    bridge  text collate "C" not null references bridge,
    since   timestamptz not null default now(),
    note    text,
    constraint journal_of_bridge unique (journal, bridge)
);
-- A bridge's journals and its newest one, found without reading those of all bridges.
create index journal_by_bridge on journal (bridge, journal);

-- Which journal a bridge continues with after which; stated once, of two journals of one bridge. A journal that is withdrawn is no follower.
create table follower (
    bridge  text collate "C" not null,
    journal integer primary key,
    former  integer not null unique,
    foreign key (journal, bridge) references journal (journal, bridge) on delete cascade,
    foreign key (former, bridge) references journal (journal, bridge),
    constraint comes_after check (journal > former)
);
create trigger never_changed before update or truncate on follower for each statement execute function never_changed();

-- A login may load the bridge's export, or every bridge's if none is named.
create table loader (
    login  name not null,
    bridge text collate "C" references bridge,
    unique nulls not distinct (login, bridge)
);

create table haulier (
    haulier text not null,
    plate   text collate "C" not null,
    primary key (plate, haulier),
    constraint form_of_haulier check (haulier ~ '^\S(.{0,62}\S)?$' and plate ~ '^[A-Z0-9-]{1,12}$')
);

-- Changes of registrations: when, by whom, and of what.
create table change (
    change   bigint generated always as identity primary key,
    at       timestamptz not null default now(),
    by       name not null default session_user,
    of_table name not null,
    was      jsonb,
    is_now   jsonb
);

-- Entries --------------------------------------------------------------------------------------------------------------------------------

-- Each year has a table of its own, which is copied once when the year is over. No entry can be stored that doesn't fit its digest, whoever writes it, and
-- whatever it is restored from. The year is that of the moment in UTC. It is 0 in `entry_before`, and 9999 for a moment that is of no year: before 2000, or of a
-- year that hadn't begun when the entry came. Each table keeps a number from being stored twice within its year, and `compare` and `insert_new` do so over all of
-- them. Only `take_in` stores entries, and the row of `load` next to them keeps their journal.
create table entry (
    journal     integer not null,
    number      bigint not null,
    key         text collate "C" not null,
    kind        text collate "C" not null,
    plate       text collate "C" not null,
    moment      timestamptz not null,
    gross_kg    integer,
    preset_kg   integer,
    interval_kg integer not null,
    max_kg      integer not null,
    serial      text collate "C" not null,
    digest      bytea not null,
    received_at timestamptz not null default now(),
    previous    bytea,
    year        integer not null,
    -- patterns without bounded repetitions, because these take most of a load's time
    constraint form check (number between 1 and 4294967295 and length(key) between 1 and 32 and key !~ '[^A-Za-z0-9-]'
        and kind in ('first', 'second', 'single', 'void') and length(plate) between 1 and 12 and plate !~ '[^A-Z0-9-]'
        and gross_kg between 1 and 9999999 and preset_kg between 1 and 9999999 and interval_kg in (1, 2, 5, 10, 20, 50)
        and max_kg between 1 and 500000 and length(serial) between 1 and 16 and serial !~ '[^A-Z0-9]'),
    constraint weights_of_kind check ((gross_kg is null) = (kind = 'void') and (preset_kg is not null) = (kind = 'single')),
    constraint form_of_previous check (octet_length(previous) = 32),
    -- a digest is made of whole seconds
    constraint whole_second check (moment = date_trunc('second', moment)),
    constraint digest_fits check (digest = digest_of(number, key, kind, plate, moment at time zone 'UTC', gross_kg, preset_kg,
        interval_kg, max_kg, serial, encode(previous, 'hex')))
) partition by list (year);
-- Journal and number are one value of 64 bits, so a search for a plate within a journal ends where the journal ends.
create index entry_by_plate on entry (plate, ((journal::bigint << 32) | number));
-- The keys of a load are next to each other, so it doesn't read a page of the index for each.
create index entry_by_key on entry (((journal::bigint << 32) | (hashtextextended(key, 0) & 4294967295)));
create index entry_by_moment on entry using brin (moment) with (pages_per_range = 32);
create trigger never_changed before update or delete or truncate on entry for each statement execute function never_changed();

-- Entries of a year whose table couldn't be made yet, and in an office that is older than version 8 those from before that version.
create table entry_before (like entry including defaults including constraints, primary key (journal, number), constraint of_year check (year = 0));
alter table entry_before alter column year set default 0;
create index entry_before_by_plate on entry_before (plate, ((journal::bigint << 32) | number));
create index entry_before_by_key on entry_before (((journal::bigint << 32) | (hashtextextended(key, 0) & 4294967295)));
create index entry_before_by_moment on entry_before using brin (moment) with (pages_per_range = 32);
alter table entry attach partition entry_before for values in (0);
create trigger never_changed before insert or update or delete or truncate on entry_before for each statement execute function never_changed();

-- Of each journal and year: the first and last number of its entries, how many they are, and when the last one came. `since` and `until` are the years in which
-- these numbers can be. They are the year itself, unless the numbers of two years lie among each other. `begins` is the first number of all of them. The rows lie
-- far apart, or PostgreSQL would read all of them for one.
create table journal_year (
    journal     integer not null references journal,
    year        integer not null,
    first       bigint not null,
    last        bigint not null,
    entries     bigint not null,
    received_at timestamptz not null,
    begins      bigint not null,
    since       integer not null,
    until       integer not null,
    primary key (journal, year)
) with (fillfactor = 10);
-- a journal's years are gone through by their numbers
create index journal_year_by_first on journal_year (journal, first);

-- A bridge's own days, kept by each load: what `computed_day_total` says.
create table day_sum (
    day        date not null,
    bridge     text collate "C" not null references bridge,
    tickets    bigint not null,
    gross_kg   bigint not null,
    net_kg     bigint not null,
    brought_kg bigint not null,
    taken_kg   bigint not null,
    preset_kg  bigint not null,
    primary key (day, bridge)
);

-- Firsts without a Second or Void, kept by each load: what `computed_open_entry` says.
create table open_entry (
    journal  integer not null references journal,
    plate    text collate "C" not null,
    number   bigint not null,
    since    timestamptz not null,
    gross_kg integer not null,
    primary key (journal, plate)
);

-- Findings -------------------------------------------------------------------------------------------------------------------------------

-- The meaning of each kind of finding, and what to do. The lowest rank comes first.
create table advice (
    what  text primary key,
    means text not null,
    to_do text not null,
    rank  integer not null default 50
);

-- Each thing that doesn't fit, written once.
create table finding (
    finding bigint generated always as identity primary key,
    journal integer not null references journal,
    what    text not null references advice,
    first   bigint not null,
    last    bigint not null,
    -- the record as it came, or a text
    record  text not null,
    at      timestamptz not null default now()
);
create unique index finding_once on finding (journal, what, first, last, sha256_of(record));
-- The findings of a day are counted.
create index finding_by_time on finding (journal, at);
create trigger never_changed before update or delete or truncate on finding for each statement execute function never_changed();

create table acknowledgement (
    finding bigint primary key references finding,
    note    text not null,
    at      timestamptz not null default now(),
    by      name not null default session_user,
    constraint note_says_something check (note ~ '\S' and length(note) <= 1000)
);

-- Loads ----------------------------------------------------------------------------------------------------------------------------------

-- The records of a load, in a table of its own for each login. So what a login leaves there slows down no other load, and takes no more of the disk than
-- `keep_handed_small` allows. Login and transaction aren't for the client to say.
create table handed (
    number      bigint not null,
    key         text collate "C" not null,
    kind        text collate "C" not null,
    plate       text collate "C" not null,
    -- in UTC
    moment      timestamp not null check (isfinite(moment)),
    gross_kg    integer,
    preset_kg   integer,
    interval_kg integer not null,
    max_kg      integer not null,
    serial      text collate "C" not null,
    digest      text collate "C" not null,
    login       name not null default session_user,
    within      xid8 not null default pg_current_xact_id(),
    previous    text collate "C"
) partition by list (login);

-- A record as it came.
create type at_hand as (number bigint, key text collate "C", kind text collate "C", plate text collate "C", moment timestamp, gross_kg integer,
    preset_kg integer, interval_kg integer, max_kg integer, serial text collate "C", digest text collate "C", previous text collate "C");

create table load (
    load         bigint generated always as identity primary key,
    journal      integer not null references journal,
    at           timestamptz not null default now(),
    by           name not null default session_user,
    records      bigint not null,
    last         bigint,
    added        bigint not null,
    findings     bigint not null,
    new_findings bigint not null,
    is_newest    boolean not null default false,
    fetched_at   timestamptz
);
create index load_by_journal on load (journal, load);
create trigger never_changed before update or delete or truncate on load for each statement execute function never_changed();

-- The state that the loads of a journal left. Its row is locked while a load of its bridge runs, which only a loader of that bridge can do.
create table standing (
    journal    integer primary key references journal on delete cascade,
    -- when the newest export that was taken in had been fetched, and the newest whole one
    fetched_at timestamptz,
    whole_at   timestamptz,
    -- the last number of the years whose plates were dropped
    sealed     bigint not null default 0
);

create table refusal (
    refusal    bigint generated always as identity primary key,
    at         timestamptz not null default now(),
    by         name not null default session_user,
    address    inet default inet_client_addr(),
    -- as it was named, though there may be none
    bridge     text collate "C" not null,
    reason     text not null,
    why        text not null,
    fetched_at timestamptz
);
create index refusal_by_login on refusal (by, at);
create index refusal_by_time on refusal (at);

-- The subject of a load, which its functions pass to each other. `stored` is the last number that is stored of its journal, `before` the last one that is stored
-- below the export. `fetched_before` is when the newest earlier export was fetched. `is_first` says that nothing is stored of the bridge's newest journal yet.
-- `since` and `until` are the years in which entries of the export's numbers, and the last one below it, are stored.
create type taking as (
    bridge         text,
    days           integer,
    places         integer,
    is_newest      boolean,
    fetched        timestamptz,
    lowest         bigint,
    highest        bigint,
    journal        integer,
    sealed         bigint,
    stored         bigint,
    before         bigint,
    before_at      timestamptz,
    is_former      boolean,
    fetched_before timestamptz,
    is_first       boolean,
    since          integer,
    until          integer
);

-- Connections of loaders that the guard ended, and why.
create table ended_connection (
    ended bigint generated always as identity primary key,
    at    timestamptz not null default now(),
    login name not null,
    pid   integer not null,
    why   text not null
);
create index ended_connection_by_login on ended_connection (login, at);

-- When the guard ran last.
create table guard_run (
    is_one boolean primary key default true,
    at     timestamptz not null,
    constraint one_row check (is_one)
);

-- Years whose plates were dropped ----------------------------------------------------------------------------------------------------------

-- `digest` is of the digests of all entries of the year in the order of their numbers, `kept_digest` of what is kept.
create table sealed_year (
    journal     integer not null references journal,
    year        integer not null,
    first       bigint not null,
    last        bigint not null,
    entries     bigint not null,
    digest      bytea not null,
    kept_digest bytea not null,
    at          timestamptz not null default now(),
    by          name not null default session_user,
    primary key (journal, year)
);

-- The rest of such an entry: no plate, no key, and no digest, from which a plate could be guessed. `partner` is the First of a Second.
create table sealed_entry (
    journal     integer not null references journal,
    number      bigint not null,
    year        integer not null,
    kind        text collate "C" not null,
    moment      timestamptz not null,
    gross_kg    integer,
    preset_kg   integer,
    interval_kg integer not null,
    max_kg      integer not null,
    serial      text collate "C" not null,
    partner     bigint,
    primary key (journal, number)
);

insert into version values (9);
\elif :is_older
\ir ../former/to_version_9.sql
\else
set local role head_office;
set local search_path = head_office;
\endif

-- By how much the bridge's clock was ahead of this server's at a load, if the load said what it shows.
alter table load add column if not exists apart interval;

-- The office's own check -----------------------------------------------------------------------------------------------------------------

-- The entries that a load added, one row a load, chained in each journal. `digest` is the SHA-256 of the former row's digest and the digests of these entries in the order of
-- their numbers. The first one of a journal is over all entries that it has. The bridge keeps the newest.
create table if not exists receipt (
    journal integer not null references journal,
    receipt integer not null,
    load    bigint not null references load,
    at      timestamptz not null default now(),
    numbers int8multirange not null,
    entries bigint not null,
    digest  bytea not null,
    primary key (journal, receipt),
    constraint counts_from_one check (receipt > 0),
    constraint length_of_digest check (octet_length(digest) = 32)
);
do $$ begin create trigger never_changed before update or delete or truncate on receipt for each statement execute function never_changed();
exception when duplicate_object then null; end $$;

-- Up to which receipt of each journal the office was checked.
create table if not exists checked_receipt (
    journal integer primary key references journal,
    receipt integer not null
);

create table if not exists office_check (
    office_check bigint generated always as identity primary key,
    at           timestamptz not null default now(),
    is_whole     boolean not null,
    receipts     bigint not null,
    entries      bigint not null,
    faults       bigint not null
);

-- Faults of the office itself: what it took in isn't here any more as it came. A fault is open until somebody notes what was done.
create table if not exists office_fault (
    office_fault bigint generated always as identity primary key,
    at           timestamptz not null default now(),
    what         text not null,
    bridge       text collate "C",
    says         text not null,
    constraint kind_of_fault check (what in ('receipt', 'entry', 'sum', 'year'))
);
create index if not exists office_fault_by_time on office_fault (at);

create table if not exists office_fault_note (
    office_fault bigint primary key references office_fault,
    note         text not null check (note <> ''),
    at           timestamptz not null default now(),
    by           name not null default session_user
);

-- Bridges whose receipts this office may lack, because it was restored from an older copy. Their next load is accepted.
create table if not exists restored (
    restored bigint generated always as identity primary key,
    bridge   text collate "C" not null references bridge,
    why      text not null check (why <> ''),
    at       timestamptz not null default now(),
    by       name not null default session_user
);

-- From when and until when ---------------------------------------------------------------------------------------------------------------

-- An instrument belongs to a bridge, and a plate to a haulier, from `since` on, and until `until`, which isn't part of it. A bridge that is retired loads nothing any
-- more, and isn't missed. Its entries stay. A bridge may be renamed, and its tables follow. Refusals and changes from before keep the former name. Its loads still come
-- under that, until somebody changes the name at the bridge. If something is missing that these need, the file in verify/ says so below.
do $$
begin
    alter table instrument add column if not exists since timestamptz not null default '-infinity', add column if not exists until timestamptz not null default 'infinity',
        drop constraint instrument_pkey, add constraint instrument_pkey primary key (serial, since),
        drop constraint if exists begins_before_its_end, add constraint begins_before_its_end check (since < until),
        drop constraint instrument_bridge_fkey, add constraint instrument_bridge_fkey foreign key (bridge) references bridge on update cascade;
    alter table haulier add column if not exists since date not null default '-infinity', add column if not exists until date not null default 'infinity',
        drop constraint haulier_pkey, add constraint haulier_pkey primary key (plate, haulier, since),
        drop constraint if exists begins_before_its_end, add constraint begins_before_its_end check (since < until);
    alter table bridge add column if not exists retired_at timestamptz;
    alter table journal drop constraint journal_bridge_fkey, add constraint journal_bridge_fkey foreign key (bridge) references bridge on update cascade;
    alter table follower drop constraint follower_journal_bridge_fkey, drop constraint follower_former_bridge_fkey,
        add constraint follower_journal_bridge_fkey foreign key (journal, bridge) references journal (journal, bridge) on update cascade on delete cascade,
        add constraint follower_former_bridge_fkey foreign key (former, bridge) references journal (journal, bridge) on update cascade;
    -- but by such a cascade
    create or replace trigger never_changed before update or truncate on follower for each statement when (pg_trigger_depth() = 0) execute function never_changed();
    alter table loader drop constraint loader_bridge_fkey, add constraint loader_bridge_fkey foreign key (bridge) references bridge on update cascade;
    alter table day_sum drop constraint day_sum_bridge_fkey, add constraint day_sum_bridge_fkey foreign key (bridge) references bridge on update cascade;
    alter table restored drop constraint restored_bridge_fkey, add constraint restored_bridge_fkey foreign key (bridge) references bridge on update cascade;
exception when undefined_column or undefined_object or undefined_table then
    null;
end $$;
create table if not exists former_name (
    former text collate "C" primary key,
    bridge text collate "C" not null references bridge on update cascade,
    at     timestamptz not null default now(),
    by     name not null default session_user,
    constraint is_another_name check (former <> bridge)
);

-- Corrections ----------------------------------------------------------------------------------------------------------------------------

-- Entries that were set aside, because they are false, or that count again. `takes_back` is the correction that this one takes back.
create table if not exists correction (
    correction bigint generated always as identity primary key,
    journal    integer not null references journal,
    first      bigint not null,
    last       bigint not null,
    entries    bigint not null,
    takes_back bigint,
    why        text not null,
    at         timestamptz not null default now(),
    by         name not null default session_user,
    constraint taken_back_once unique (takes_back),
    constraint takes_back_a_correction foreign key (takes_back) references correction,
    constraint why_says_something check (why ~ '\S' and length(why) <= 1000)
);

-- The entries that are set aside, as they came. `receipt` is the one of the load that took it in. Once the plates of its year are dropped, an entry has no key, plate
-- and digest here either.
create table if not exists set_aside_entry (
    journal     integer not null,
    number      bigint not null,
    key         text collate "C",
    kind        text collate "C" not null,
    plate       text collate "C",
    moment      timestamptz not null,
    gross_kg    integer,
    preset_kg   integer,
    interval_kg integer not null,
    max_kg      integer not null,
    serial      text collate "C" not null,
    digest      bytea,
    received_at timestamptz not null,
    previous    bytea,
    year        integer not null,
    receipt     integer,
    correction  bigint not null references correction,
    primary key (journal, number, correction),
    constraint digest_fits check (digest = digest_of(number, key, kind, plate, moment at time zone 'UTC', gross_kg, preset_kg, interval_kg, max_kg, serial,
        encode(previous, 'hex')))
);
\ir ../verify/version_9.sql
-- A package from before sqitch refuses to run over a file that isn't its own. Otherwise it would put its older functions in the place of these.
insert into applied_file (name, sha256) values ('1.sql', repeat('0', 64)) on conflict (name) do update set sha256 = excluded.sha256, at = now();
\ir ../upgrading/end.sql
select format('version %s', its) from generate_series(case :was when 0 then 9 else :was + 1 end, 9) its order by its;
\endif
\endif
