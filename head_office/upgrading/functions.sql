-- Makes the functions, views and rights in one transaction, if their files aren't those of `sum`, or if `again` says so. No load runs with half of them.
\ir look.sql
select :'made' = :'sum' and not :'again' as has_them \gset
\if :has_them
\else
\set handed_mode 'share row exclusive'
\set others_mode 'share row exclusive'
\ir begin.sql
-- another upgrade may have made them meanwhile
select coalesce(max(sha256) = :'sum', false) and not :'again' as has_them from head_office.applied_file where name = 'functions' \gset
\if :has_them
rollback;
\else
\ir ../functions/all.sql
commit;
\endif
\endif
