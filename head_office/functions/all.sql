-- Makes the functions, triggers, views and rights of the head office, a file for each subject. It runs in a transaction that upgrading/begin.sql began. A function
-- whose parameters change, or a view that loses a column, must be dropped in a change of sqitch.plan first. A view and a function in SQL need those that they name, so the
-- order matters.
set local role none;
\ir roles.sql
set local role head_office;
set local search_path = head_office;
\ir of_tables.sql
\ir texts.sql
\ir years.sql
\ir tickets.sql
\ir sums.sql
\ir registered.sql
\ir landing.sql
\ir refusals.sql
\ir stops.sql
\ir export.sql
\ir storing.sql
\ir findings.sql
\ir receipts.sql
\ir corrections.sql
\ir take_in.sql
\ir reading.sql
\ir seal.sql
\ir advice.sql
do $$ begin perform make_years(); end $$;
\ir rights.sql
insert into applied_file as a (name, sha256) values ('functions', :'sum') on conflict (name) do update set sha256 = excluded.sha256, at = now();
