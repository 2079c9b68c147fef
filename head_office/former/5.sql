-- Tables for sums that are kept, findings that are acknowledged, loads that were refused, changes of what is registered, hauliers, and years whose
-- plates were dropped.

create table applied_file (
    name   text primary key,
    sha256 text not null,
    at     timestamptz not null default now(),
    constraint form_of_sha256 check (sha256 ~ '^[0-9a-f]{64}$')
);

create collation natural_order (provider = icu, locale = 'en-u-kn-true');

-- functions/ makes these again with other columns or parameters
drop function if exists take_in(text), take_in(text, boolean);
drop view if exists day_total, on_site, ticket_line, finding_beside_stored;

-- Registered -----------------------------------------------------------------------------------------------------------------------------

alter table bridge
    add column places integer,
    add column whole_within interval not null default '7 days',
    add column plate_years integer,
    add constraint places_of_a_journal check (places between 2 and 100000),
    add constraint whole_within_is_positive check (whole_within > interval '0'),
    add constraint plate_years_is_positive check (plate_years >= 1);

create table haulier (
    haulier text not null,
    plate   text collate "C" not null,
    primary key (plate, haulier),
    constraint form_of_haulier check (haulier ~ '^\S(.{0,62}\S)?$' and plate ~ '^[A-Z0-9-]{1,12}$')
);

create table change (
    change   bigint generated always as identity primary key,
    at       timestamptz not null default now(),
    by       name not null default session_user,
    of_table name not null,
    was      jsonb,
    is_now   jsonb
);

-- Entries --------------------------------------------------------------------------------------------------------------------------------

-- No look-up of its own journal for each entry, and patterns without bounded repetitions, because a load spends most of its time there.
alter table entry
    drop constraint entry_journal_fkey,
    drop constraint form,
    add constraint form check (number between 1 and 4294967295 and length(key) between 1 and 32 and key !~ '[^A-Za-z0-9-]'
        and kind in ('first', 'second', 'single', 'void') and length(plate) between 1 and 12 and plate !~ '[^A-Z0-9-]'
        and gross_kg between 1 and 9999999 and preset_kg between 1 and 9999999 and interval_kg in (1, 2, 5, 10, 20, 50)
        and max_kg between 1 and 500000 and length(serial) between 1 and 16 and serial !~ '[^A-Z0-9]') not valid,
    add constraint whole_second check (moment = date_trunc('second', moment)) not valid;

create index entry_by_key on entry (hashtextextended(key, journal));

create table day_sum (
    day        date not null,
    bridge     text collate "C" not null references bridge,
    tickets    bigint not null,
    gross_kg   bigint not null,
    net_kg     bigint not null,
    brought_kg bigint not null,
    taken_kg   bigint not null,
    preset_kg  bigint not null,
    primary key (day, bridge)
);

create table open_entry (
    journal  integer not null references journal,
    plate    text collate "C" not null,
    number   bigint not null,
    since    timestamptz not null,
    gross_kg integer not null,
    primary key (journal, plate)
);

-- Loads ----------------------------------------------------------------------------------------------------------------------------------

create table standing (
    journal    integer primary key references journal on delete cascade,
    fetched_at timestamptz,
    whole_at   timestamptz,
    sealed     bigint not null default 0
);
insert into standing (journal) select journal from journal;

alter table load
    add column is_newest boolean not null default false,
    add column fetched_at timestamptz;

create table refusal (
    refusal    bigint generated always as identity primary key,
    at         timestamptz not null default now(),
    by         name not null default session_user,
    address    inet default inet_client_addr(),
    bridge     text collate "C" not null,
    reason     text not null,
    why        text not null,
    fetched_at timestamptz
);
create index refusal_by_login on refusal (by, at);
create index refusal_by_time on refusal (at);

create type taking as (
    bridge         text,
    days           integer,
    places         integer,
    is_newest      boolean,
    fetched        timestamptz,
    lowest         bigint,
    highest        bigint,
    journal        integer,
    sealed         bigint,
    stored         bigint,
    before         bigint,
    before_at      timestamptz,
    is_former      boolean,
    fetched_before timestamptz
);

-- Findings -------------------------------------------------------------------------------------------------------------------------------

alter table finding drop constraint finding_journal_what_first_last_record_key;
create unique index finding_once on finding (journal, what, first, last, sha256_of(record));

create table acknowledgement (
    finding bigint primary key references finding,
    note    text not null,
    at      timestamptz not null default now(),
    by      name not null default session_user,
    constraint note_says_something check (note ~ '\S' and length(note) <= 1000)
);

alter table advice add column rank integer not null default 50;

-- Years ----------------------------------------------------------------------------------------------------------------------------------

create table sealed_year (
    journal     integer not null references journal,
    year        integer not null,
    first       bigint not null,
    last        bigint not null,
    entries     bigint not null,
    digest      bytea not null,
    kept_digest bytea not null,
    at          timestamptz not null default now(),
    by          name not null default session_user,
    primary key (journal, year)
);

create table sealed_entry (
    journal     integer not null references journal,
    number      bigint not null,
    year        integer not null,
    kind        text collate "C" not null,
    moment      timestamptz not null,
    gross_kg    integer,
    preset_kg   integer,
    interval_kg integer not null,
    max_kg      integer not null,
    serial      text collate "C" not null,
    partner     bigint,
    primary key (journal, number)
);

-- What stands already ----------------------------------------------------------------------------------------------------------------------

-- until now the net over a preset tare above the gross was shown without its sign, and the gross as the tare
insert into day_sum
select (t.at at time zone b.zone)::date, t.bridge, count(*), sum(t.gross_kg), sum(t.net_kg), coalesce(sum(t.net_kg) filter (where t.brought), 0),
    coalesce(sum(t.net_kg) filter (where not t.brought), 0), coalesce(sum(t.net_kg) filter (where t.kind = 'preset'), 0)
from (
    select bridge, kind, at, gross_kg, brought, case when kind = 'preset' and tare_kg = gross_kg then -net_kg else net_kg end as net_kg from ticket
) t join bridge b using (bridge) group by 1, 2;

insert into open_entry
select e.journal, e.plate, e.number, e.moment, e.gross_kg
from (
    select distinct on (journal, plate) journal, plate, number, moment, gross_kg, kind from entry where kind <> 'single' order by journal, plate, number desc
) e
where e.kind = 'first';

insert into version values (5);
