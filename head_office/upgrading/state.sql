-- Prints four lines about a database and the plan. `known` has the names of the plan's changes and tags, `sums` a name=SHA-1 for each file of deploy/. sqitch records
-- these too. The first line has changes and tags that only a newer package can have made. The second one has changes that ran from another file. The third one is
-- the sum of the functions, and the fourth one says whether sqitch has something to do.
\ir look.sql
\set newer ''
\set others ''
\set lacks true
select to_regclass('head_office_sqitch.changes') is not null as has_registry \gset
\if :has_registry
with made as (
    select change as name, script_hash as sum, committed_at as at from head_office_sqitch.changes where project = 'head_office'
    union all
    select tag, null, committed_at from head_office_sqitch.tags where project = 'head_office'
)
select coalesce(string_agg(name, ', ' order by at) filter (where name <> all (string_to_array(:'known', ' '))), '') as newer,
    coalesce(string_agg(name, ', ' order by at) filter (where name || '=' || sum <> all (string_to_array(:'sums', ' '))), '') as others,
    not coalesce(array_agg(name) @> string_to_array(:'known', ' '), false) as lacks
from made \gset
\endif
\echo :newer
\echo :others
\echo :made
\echo :lacks
