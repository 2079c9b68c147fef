-- Compares the stored entries with the constraints that 5.sql added.

alter table entry validate constraint form, validate constraint whole_second;

insert into version values (6);
