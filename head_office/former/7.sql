-- Two indexes in forms by which a load of a large office is faster.
create index entry_by_plate_and_place on entry (plate, ((journal::bigint << 32) | number));
create index entry_by_key_and_place on entry (((journal::bigint << 32) | (hashtextextended(key, 0) & 4294967295)));
drop index entry_by_plate, entry_by_key;
alter index entry_by_plate_and_place rename to entry_by_plate;
alter index entry_by_key_and_place rename to entry_by_key;

-- Whether nothing is stored of the bridge's newest journal, when its load begins.
alter type taking add attribute is_first boolean;

insert into version values (7);
