-- Ends the transaction of a change: of the newest one together with the functions, so that no load runs with functions of one version over tables of another.
-- `newest` and `sum` come from `upgrade`. Without them, as in a bare `sqitch deploy`, the next `upgrade` makes the functions.
\set makes_functions false
\if :{?sum}
select :'change' = :'newest' as makes_functions \gset
\endif
\if :makes_functions
\ir ../functions/all.sql
\endif
commit;
