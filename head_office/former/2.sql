-- Entries of version 2 hold the digest of the entry before: the previous digest, in their text and in the last column of an export. An entry of version 1
-- holds none, and stays as it is. Each stored digest is computed again by this.
drop view unsound_entry, finding_beside_stored;
alter table entry
    add column previous bytea,
    drop constraint digest_fits,
    add constraint form_of_previous check (octet_length(previous) = 32),
    add constraint digest_fits check (digest = digest_of(number, key, kind, plate, moment at time zone 'UTC', gross_kg, preset_kg,
        interval_kg, max_kg, serial, encode(previous, 'hex')));
alter table handed add column previous text collate "C";
drop function digest_of(bigint, text, text, text, timestamp, integer, integer, integer, integer, text);
drop function line_of(bigint, text, text, text, timestamp, integer, integer, integer, integer, text, text);

insert into version values (2);
