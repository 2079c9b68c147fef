-- Which journal a bridge continues with after which.
alter table journal add constraint journal_of_bridge unique (journal, bridge);
create table follower (
    bridge  text collate "C" not null,
    journal integer primary key,
    former  integer not null unique,
    foreign key (journal, bridge) references journal (journal, bridge) on delete cascade,
    foreign key (former, bridge) references journal (journal, bridge),
    constraint comes_after check (journal > former)
);
create trigger never_changed before update or truncate on follower for each statement execute function never_changed();

insert into version values (3);
