-- Brings the tables of an earlier version, which `was` names, to version 9. Functions and views are made by the files of functions/, in the same transaction.
set local role head_office;
set local search_path = head_office;
\ir ../functions/of_tables.sql
select :was < 2 as lacks_2, :was < 3 as lacks_3, :was < 4 as lacks_4, :was < 5 as lacks_5, :was < 6 as lacks_6, :was < 7 as lacks_7, :was < 8 as lacks_8 \gset
\if :lacks_2
\ir 2.sql
\endif
\if :lacks_3
\ir 3.sql
\endif
\if :lacks_4
insert into version values (4);
\endif
\if :lacks_5
\ir 5.sql
\endif
\if :lacks_6
\ir 6.sql
\endif
\if :lacks_7
\ir 7.sql
\endif
\if :lacks_8
\ir 8.sql
\endif
\ir 9.sql
