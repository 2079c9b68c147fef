-- A record as a line of an export, of version 1 where there is no previous digest. The digest of a changed entry may hold any text, also such as a
-- terminal obeys.
create or replace function line_of(number bigint, key text, kind text, plate text, moment timestamp, gross_kg integer, preset_kg integer,
    interval_kg integer, max_kg integer, serial text, digest text, previous text) returns text stable parallel safe
    return regexp_replace(concat_ws(',', number, key, kind, plate, to_char(moment, 'YYYY-MM-DD HH24:MI:SS'), coalesce(gross_kg::text, ''),
        coalesce(preset_kg::text, ''), interval_kg, max_kg, serial, digest, previous), '[^ -~]', '?', 'g');

-- A moment as text.
create or replace function utc(at timestamptz) returns text stable parallel safe return to_char(at at time zone 'UTC', 'YYYY-MM-DD HH24:MI:SS') || ' UTC';

-- A text within HTML, and a number with its thousands apart.
create or replace function html(it text) returns text immutable parallel safe
    return replace(replace(replace(replace(it, '&', '&amp;'), '<', '&lt;'), '>', '&gt;'), '"', '&quot;');
-- A record within HTML, its digests shortened.
create or replace function short(record text) returns text immutable parallel safe
    return regexp_replace(regexp_replace(html(record), ',(?! )', ', ', 'g'), '([0-9a-f]{8})[0-9a-f]{56}', '<span title="\&">\1…</span>', 'g');
create or replace function thousands(it bigint) returns text immutable parallel safe
    return to_char(it, 'FM999,999,999,999,990');
