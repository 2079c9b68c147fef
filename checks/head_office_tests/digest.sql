-- The digest of an entry, its line in an export, and their forms. Python's hashlib computed the digests from the texts that docs/formats.md describes.
BEGIN;
SET LOCAL search_path = test, tap;
SELECT plan(34);

-- Digests of version 2, and of version 1 without a previous digest
SELECT is(encode(head_office.digest_of(1, 'K1', 'first', 'AB-12', '2025-03-10 08:00:00', 18340, NULL, 20, 60000, 'WB01', repeat('0', 64)), 'hex'),
    'a982a0aaef75f8622de6a96ef3a1d8ddd9de4bd18d9cda420eeb00dfbfcfa68c', 'a First has the digest of the page');
SELECT is(encode(head_office.digest_of(2, 'K2', 'second', 'AB-12', '2025-03-10 09:05:07', 42100, NULL, 20, 60000, 'WB01',
    'a982a0aaef75f8622de6a96ef3a1d8ddd9de4bd18d9cda420eeb00dfbfcfa68c'), 'hex'),
    'c6b4469119aa76ab011d247d6cde1dd756de83d55ad0e4d789e93e1d01482c97', 'a Second has the digest that Python computes');
SELECT is(encode(head_office.digest_of(3, 'key-3', 'single', 'C-9', '2025-12-31 23:59:59', 18350, 5000, 50, 100000, 'WB02',
    'c6b4469119aa76ab011d247d6cde1dd756de83d55ad0e4d789e93e1d01482c97'), 'hex'),
    '4675e1d713d182f2abebafc3ff5cf5eb22fe7ac238b22ed2436bc308beef279f', 'a Single, with a preset tare, another e and another serial');
SELECT is(encode(head_office.digest_of(4, 'V4', 'void', 'D', '1999-12-31 23:59:59', NULL, NULL, 1, 60000, 'WB01',
    '4675e1d713d182f2abebafc3ff5cf5eb22fe7ac238b22ed2436bc308beef279f'), 'hex'),
    '7d03714e168f20e6aec2531f6084c54527f8180946887447a70418a2e29c9281', 'a Void, whose weights are a hyphen');
SELECT is(encode(head_office.digest_of(4294967295, repeat('K', 32), 'single', 'ABCDEFGHIJKL', '1969-12-31 23:59:58', 9999999, 9999998, 2, 500000,
    repeat('Z', 16), repeat('f', 64)), 'hex'),
    '20ab3d6e2144da172fd1271c8034d254375107f3d50b084a4cb00c22c2c20ab4', 'the largest of each field, before 1970');
SELECT is(encode(head_office.digest_of(1, 'K1', 'first', 'AB-12', '2025-03-10 08:00:00', 18340, NULL, 20, 60000, 'WB01', NULL), 'hex'),
    '1ff0f144d39a8d0890cc2c886fab380c93a9dd98d1d16ca37031b262a56fd3b3', 'a First of version 1');
SELECT is(encode(head_office.digest_of(7, 'K7', 'void', 'AB-12', '2025-03-10 08:00:00', NULL, NULL, 20, 60000, 'WB01', NULL), 'hex'),
    'cf47ad1f7fa577603b2ba435eb2be57f7d90df203fa6b1d21d6f62f9b709b6e4', 'a Void of version 1');

-- The tests make their own digests in another way
SELECT is(digest(1, 'K1', 'first', 'AB-12', '2025-03-10 08:00:00', 18340, NULL, 20, 60000, 'WB01', repeat('0', 64)),
    'a982a0aaef75f8622de6a96ef3a1d8ddd9de4bd18d9cda420eeb00dfbfcfa68c', 'the digests of the tests are those of the page');
SELECT is(digest(3, 'key-3', 'single', 'C-9', '2025-12-31 23:59:59', 18350, 5000, 50, 100000, 'WB02',
    'c6b4469119aa76ab011d247d6cde1dd756de83d55ad0e4d789e93e1d01482c97'),
    '4675e1d713d182f2abebafc3ff5cf5eb22fe7ac238b22ed2436bc308beef279f', '  also of a Single');
SELECT is(digest(7, 'K7', 'void', 'AB-12', '2025-03-10 08:00:00', NULL, NULL, 20, 60000, 'WB01', NULL),
    'cf47ad1f7fa577603b2ba435eb2be57f7d90df203fa6b1d21d6f62f9b709b6e4', '  and of version 1');

-- Lines of an export
SELECT is(head_office.line_of(1, 'K1', 'first', 'AB-12', '2025-03-10 08:00:00', 18340, NULL, 20, 60000, 'WB01', 'd1', 'p1'),
    '1,K1,first,AB-12,2025-03-10 08:00:00,18340,,20,60000,WB01,d1,p1', 'the line of a First has no preset tare');
SELECT is(head_office.line_of(3, 'K3', 'single', 'C-9', '2025-12-31 23:59:59', 18350, 5000, 50, 100000, 'WB02', 'd3', 'p3'),
    '3,K3,single,C-9,2025-12-31 23:59:59,18350,5000,50,100000,WB02,d3,p3', 'the line of a Single has one');
SELECT is(head_office.line_of(4, 'V4', 'void', 'D', '1999-01-02 03:04:05', NULL, NULL, 1, 60000, 'WB01', 'd4', 'p4'),
    '4,V4,void,D,1999-01-02 03:04:05,,,1,60000,WB01,d4,p4', 'the line of a Void has no weight');
SELECT is(head_office.line_of(1, 'K1', 'first', 'AB-12', '2025-03-10 08:00:00', 18340, NULL, 20, 60000, 'WB01', 'd1', NULL),
    '1,K1,first,AB-12,2025-03-10 08:00:00,18340,,20,60000,WB01,d1', 'a line of version 1 ends with its digest');
SELECT is(head_office.line_of(1, 'K1', 'first', 'AB-12', '2025-03-10 08:00:00', 18340, NULL, 20, 60000, 'WB01', E'\x1b[2J\r\nü€\x7f\t', NULL),
    '1,K1,first,AB-12,2025-03-10 08:00:00,18340,,20,60000,WB01,?[2J??????', 'a digest that commands a terminal is shown as question marks');

-- Forms
SELECT is(head_office.digest_in(repeat('0a', 32)), decode(repeat('0a', 32), 'hex'), 'a digest of 64 digits is bytes');
SELECT is(head_office.digest_in(repeat('a', 63)), NULL, 'one of 63 digits is none');
SELECT is(head_office.digest_in(repeat('a', 65)), NULL, 'one of 65 digits is none');
SELECT is(head_office.digest_in(repeat('A', 64)), NULL, 'one of capitals is none');
SELECT is(head_office.digest_in(repeat('a', 63) || 'g'), NULL, 'one with a g is none');
SELECT is(head_office.digest_in(''), NULL, 'an empty text is none');
SELECT ok(head_office.is_formed('\x00', repeat('a', 64), '2025-03-10 08:00:00'), 'a record of version 2 has its form');
SELECT ok(head_office.is_formed('\x00', NULL, '2025-03-10 08:00:00'), 'a record of version 1 has its form');
SELECT ok(NOT head_office.is_formed(NULL, repeat('a', 64), '2025-03-10 08:00:00'), 'a record without a digest has not');
SELECT ok(NOT head_office.is_formed('\x00', repeat('a', 63), '2025-03-10 08:00:00'), 'nor has one with a short previous digest');
SELECT ok(NOT head_office.is_formed('\x00', '', '2025-03-10 08:00:00'), 'nor one with an empty one');
SELECT ok(NOT head_office.is_formed('\x00', NULL, '2025-03-10 08:00:00.5'), 'nor one with a part of a second');

-- A record and its digest
CREATE FUNCTION pg_temp.is_sound(digest text, previous text, gross integer DEFAULT 18340, moment timestamp DEFAULT '2025-03-10 08:00:00') RETURNS boolean
    LANGUAGE sql AS $$
SELECT head_office.is_sound((1, 'K1', 'first', 'AB-12', moment, gross, NULL, 20, 60000, 'WB01', digest, previous)::head_office.at_hand) $$;
SELECT ok(pg_temp.is_sound('a982a0aaef75f8622de6a96ef3a1d8ddd9de4bd18d9cda420eeb00dfbfcfa68c', repeat('0', 64)), 'a record that fits its digest is sound');
SELECT ok(pg_temp.is_sound('1ff0f144d39a8d0890cc2c886fab380c93a9dd98d1d16ca37031b262a56fd3b3', NULL), 'also one of version 1');
SELECT ok(NOT pg_temp.is_sound('a982a0aaef75f8622de6a96ef3a1d8ddd9de4bd18d9cda420eeb00dfbfcfa68c', repeat('0', 64), 18360), 'with another gross it is not');
SELECT ok(NOT pg_temp.is_sound('A982A0AAEF75F8622DE6A96EF3A1D8DDD9DE4BD18D9CDA420EEB00DFBFCFA68C', repeat('0', 64)), 'nor with its digest in capitals');
SELECT ok(NOT pg_temp.is_sound('1ff0f144d39a8d0890cc2c886fab380c93a9dd98d1d16ca37031b262a56fd3b3', repeat('0', 64)), 'nor with the digest of the other version');
SELECT ok(NOT pg_temp.is_sound(digest(1, 'K1', 'first', 'AB-12', '2025-03-10 08:00:00', 18340, NULL, 20, 60000, 'WB01', 'none'), 'none'),
    'nor with a previous digest that no service writes');
SELECT ok(NOT pg_temp.is_sound('a982a0aaef75f8622de6a96ef3a1d8ddd9de4bd18d9cda420eeb00dfbfcfa68c', repeat('0', 64), 18340, '2025-03-10 08:00:00.25'),
    'nor with a part of a second');
SELECT * FROM finish();
ROLLBACK;
