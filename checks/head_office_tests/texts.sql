-- Texts within a page: what a bridge sends can't become a tag or an attribute of it.
BEGIN;
SET LOCAL search_path = test, tap;
SELECT plan(16);
SELECT is(head_office.html('<b a="1">&amp;'), '&lt;b a=&quot;1&quot;&gt;&amp;amp;', 'a tag is text within a page');
SELECT is(head_office.html('&lt;'), '&amp;lt;', '  and what looks like one stays what it was');
SELECT is(head_office.html('A-1, 9000 kg'), 'A-1, 9000 kg', 'other text stays');
SELECT is(head_office.html(NULL), NULL, '  and none is none');
SELECT is(head_office.short('1,K1,first,A-1'), '1, K1, first, A-1', 'a record gets places at which a line may break');
SELECT is(head_office.short('1, K1'), '1, K1', '  if it has none');
SELECT is(head_office.short('x ' || repeat('0123abcd', 8) || ' y'), 'x <span title="' || repeat('0123abcd', 8) || '">0123abcd…</span> y', 'a digest is shortened, and shown whole if pointed at');
SELECT is(head_office.short('7,' || repeat('a', 64) || ',' || repeat('b', 64)),
    '7, <span title="' || repeat('a', 64) || '">aaaaaaaa…</span>, <span title="' || repeat('b', 64) || '">bbbbbbbb…</span>', '  and so is the previous one behind it');
SELECT is(head_office.short(repeat('a', 63)), repeat('a', 63), '  but not what is none');
SELECT is(head_office.short('<script>,"'), '&lt;script&gt;, &quot;', 'a record can''t have a tag');
SELECT is(head_office.thousands(0), '0', 'zero');
SELECT is(head_office.thousands(999), '999', 'three digits');
SELECT is(head_office.thousands(1000), '1,000', 'thousands apart');
SELECT is(head_office.thousands(123456789012345), '123,456,789,012,345', '  of the largest number');
SELECT is(head_office.thousands(-25500), '-25,500', '  and below zero');
SELECT is(head_office.thousands(NULL), NULL, '  and none is none');
SELECT * FROM finish();
ROLLBACK;
