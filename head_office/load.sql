-- Loads an export: psql -X -v ON_ERROR_STOP=1 -v bridge=NORTH -f load.sql < journal.csv
-- With -v is_chained=0 it is of version 1, without the column previous. With -v is_newest=1 it has only the newest entries. -v fetched=MOMENT gives the moment
-- at which it was fetched. -v clock=MOMENT gives what the bridge's clock shows now. With -v receipt=RECEIPT, empty for the first load, the last line is the newest receipt. With -v asks_first=1 the only output is `whole` if the head office wants the whole export.
-- It is one transaction, so a load that breaks off before the commit leaves nothing. `\copy` takes no variable, so the export comes on standard input.
\set QUIET on
\set VERBOSITY terse
\pset format unaligned
\pset tuples_only on
\if :{?is_chained}
\else
\set is_chained 1
\endif
\if :{?is_newest}
\else
\set is_newest 0
\endif
\if :{?fetched}
\else
\set fetched ''
\endif
\if :{?asks_first}
\else
\set asks_first 0
\endif
\if :{?clock}
\set has_clock 1
\else
\set has_clock 0
\endif
\if :{?receipt}
\set has_receipt 1
\else
\set has_receipt 0
\set receipt ''
\endif
-- a client that was killed, or whose machine went away, ends its statement and leaves the lock of the bridge
set client_connection_check_interval = '2s';
set idle_in_transaction_session_timeout = '60s';
begin;
-- before the copy, which takes time
\if :has_clock
select set_config('head_office.apart', (:'clock'::timestamptz - clock_timestamp())::text, true) \g /dev/null
\endif
-- refuses to load if the bridge has a receipt that the head office doesn't know
select case when :'receipt' <> '' then head_office.refuse_receipt(:'bridge', :'receipt') end as refused \gset
\if :{?refused}
commit;
select :'refused';
\quit
\endif
-- says a refusal for which the server doesn't need the export
select head_office.begin_load(:'bridge', nullif(:'fetched', '')::timestamptz) as refused \gset
\if :{?refused}
commit;
select :'refused';
\quit
\endif
\if :asks_first
select head_office.wants_whole(:'bridge') as wants_whole \gset
\if :wants_whole
\echo whole
\quit
\endif
\endif
\if :is_chained
\copy head_office.handed (number, key, kind, plate, moment, gross_kg, preset_kg, interval_kg, max_kg, serial, digest, previous) from pstdin with (format csv, header match, force_not_null (key, kind, plate, serial, digest, previous), encoding 'UTF8')
\else
\copy head_office.handed (number, key, kind, plate, moment, gross_kg, preset_kg, interval_kg, max_kg, serial, digest) from pstdin with (format csv, header match, force_not_null (key, kind, plate, serial, digest), encoding 'UTF8')
\endif
select head_office.take_in(:'bridge', :'is_newest', nullif(:'fetched', '')::timestamptz);
\if :has_receipt
select 'receipt ' || its from head_office.receipt_of_load(:'bridge') its where its is not null;
\endif
commit;
