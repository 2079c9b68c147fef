-- Tickets from the entries of a journal: which First belongs to which Second, gross, tare and net. The weights were computed by hand.
BEGIN;
SET LOCAL search_path = test, tap;
SELECT plan(22);
SET LOCAL timezone = 'America/New_York';

CALL bridge('NORTH');
CALL weigh('NORTH', 'first', 'A-1', 12000, at => '2025-03-10 08:00:00');            -- 1, empty
CALL weigh('NORTH', 'first', 'B-2', 40000, at => '2025-03-10 08:10:00');            -- 2, loaded
CALL weigh('NORTH', 'single', 'A-1', 18340, 5000, at => '2025-03-10 08:20:00');     -- 3
CALL weigh('NORTH', 'second', 'A-1', 31220, at => '2025-03-10 08:30:00');           -- 4, with 1
CALL weigh('NORTH', 'second', 'B-2', 14500, at => '2025-03-10 08:40:00');           -- 5, with 2
CALL weigh('NORTH', 'first', 'A-1', 10000, at => '2025-03-10 09:00:00');            -- 6
CALL weigh('NORTH', 'void', 'A-1', at => '2025-03-10 09:05:00');                    -- 7, voids 6
CALL weigh('NORTH', 'first', 'A-1', 11000, at => '2025-03-10 09:10:00');            -- 8
CALL weigh('NORTH', 'second', 'A-1', 11000, at => '2025-03-10 09:20:00');           -- 9, with 8
CALL weigh('NORTH', 'single', 'C-3', 4000, 6500, at => '2025-03-10 09:30:00');      -- 10, below zero
CALL weigh('NORTH', 'second', 'C-3', 9000, at => '2025-03-10 09:40:00');            -- 11, no First
CALL weigh('NORTH', 'first', 'D-4', 9000, at => '2025-12-31 23:00:00');             -- 12, of the year before
CALL weigh('NORTH', 'second', 'D-4', 21000, at => '2026-01-01 00:30:00');           -- 13, with 12
CALL weigh('NORTH', 'first', 'E-5', 9000, at => '2026-01-01 01:00:00');             -- 14, stays open
CALL weigh('NORTH', 'first', 'A-1', 12500, at => '2026-01-01 05:00:00');            -- 15, of a plate that came in the year before as well
CALL weigh('NORTH', 'second', 'A-1', 22500, at => '2026-01-01 06:00:00');           -- 16, with 15
SELECT load('NORTH');

-- the same plates at another bridge, and in another file of the bridge
CALL bridge('SOUTH');
CALL weigh('SOUTH', 'first', 'E-5', 30000, at => '2026-01-01 02:00:00');
CALL weigh('SOUTH', 'second', 'E-5', 10000, at => '2026-01-01 03:00:00');
CALL weigh('SOUTH', 'first', 'F-6', 30000, at => '2026-01-01 04:00:00');
SELECT load('SOUTH');

CREATE TEMPORARY VIEW its AS SELECT t.* FROM head_office.ticket_of_journal t WHERE bridge = 'NORTH';
SELECT is((SELECT array_agg(ticket ORDER BY ticket) FROM its), '{3,4,5,9,10,13,16}', 'each Second with a First, and each Single, is a ticket');
SELECT is(rows('SELECT kind, plate, first, gross_kg, tare_kg, net_kg, brought FROM its WHERE ticket = 4'), '(pair,A-1,1,31220,12000,19220,f)',
    'a vehicle that came empty took 31220 - 12000 kg');
SELECT is(rows('SELECT kind, plate, first, gross_kg, tare_kg, net_kg, brought FROM its WHERE ticket = 5'), '(pair,B-2,2,40000,14500,25500,t)',
    'a vehicle that came loaded brought 40000 - 14500 kg');
SELECT is(rows('SELECT kind, plate, first, gross_kg, tare_kg, net_kg, brought FROM its WHERE ticket = 3'), '(preset,A-1,,18340,5000,13340,)',
    'a Single is weighed by its preset tare');
SELECT is((SELECT first FROM its WHERE ticket = 4), 1::bigint, 'a Single between First and Second belongs to neither');
SELECT is(rows('SELECT first, gross_kg, tare_kg, net_kg, brought FROM its WHERE ticket = 9'), '(8,11000,11000,0,f)',
    'the First behind a Void is the partner, and equal weights are a net of zero');
SELECT is(rows('SELECT first, gross_kg, tare_kg, net_kg FROM its WHERE ticket = 10'), '(,4000,6500,-2500)', 'a preset tare above the gross makes a net below zero');
SELECT is((SELECT count(*) FROM its WHERE ticket = 11), 0::bigint, 'a Second without a First is no ticket');
SELECT is(rows('SELECT first, gross_kg, tare_kg, net_kg, brought FROM its WHERE ticket = 13'), '(12,21000,9000,12000,f)',
    'the First of the year before is the partner');
SELECT is(rows('SELECT first, gross_kg, tare_kg, net_kg, brought FROM its WHERE ticket = 16'), '(15,22500,12500,10000,f)', '  and of a plate that came in both years the newer one');
SELECT is((SELECT at FROM its WHERE ticket = 4), '2025-03-10 08:30:00+00'::timestamptz, 'a ticket is of the moment of its Second');
SELECT is(rows($$SELECT first, gross_kg, tare_kg, brought FROM head_office.ticket_of_journal WHERE bridge = 'SOUTH'$$), '(1,30000,10000,t)',
    'the First of a plate at another bridge is no partner');
SELECT is((SELECT findings('NORTH')), '{unpaired 11,out of range 10}', 'the Second without a First, and the net below zero, are findings');

CALL new_file('SOUTH');
CALL weigh('SOUTH-2', 'single', 'F-6', 12000, 5000, at => '2026-01-02 08:00:00', serial => 'SOUTH1', key => 'OTHER1');
CALL weigh('SOUTH-2', 'second', 'F-6', 12000, at => '2026-01-02 09:00:00', serial => 'SOUTH1', key => 'OTHER2');
SELECT is(load('SOUTH-2', 'SOUTH'), 'SOUTH: records 2, added 2, findings 1, new 1', 'a new file of the bridge has a Second of a First in the former one');
SELECT is((SELECT array_agg(ticket) FROM head_office.ticket_of_journal WHERE journal = journal_of('SOUTH')), '{1}', '  which is no partner');

-- lines as the bridge exports them
CREATE TEMPORARY VIEW lines AS SELECT l.* FROM head_office.ticket_line l WHERE bridge = 'NORTH';
SELECT is((SELECT line FROM lines WHERE ticket = 4), '4,pair,A-1,1,2025-03-10 08:30:00,31220,12000,19220', 'the line of a pair, in UTC');
SELECT is((SELECT line FROM lines WHERE ticket = 3), '3,preset,A-1,,2025-03-10 08:20:00,18340,5000,13340', 'the line of a Single, without a First');
SELECT is((SELECT line FROM lines WHERE ticket = 10), '10,preset,C-3,,2025-03-10 09:30:00,4000,6500,-2500', 'the line of a net below zero');
SELECT is((SELECT count(*) FROM lines), 7::bigint, 'each ticket has one line');

-- a haulier's tickets, over all bridges
INSERT INTO head_office.haulier VALUES ('Sand & Kies', 'A-1'), ('Sand & Kies', 'E-5'), ('Other', 'B-2');
SELECT is(rows($$SELECT bridge, ticket FROM head_office.haulier_ticket WHERE haulier = 'Sand & Kies' ORDER BY bridge, ticket, at$$),
    '(NORTH,3) (NORTH,4) (NORTH,9) (NORTH,16) (SOUTH,2)', 'a haulier has the tickets of his plates');
SELECT is((SELECT array_agg(plate) FROM head_office.haulier_ticket WHERE haulier = 'Other'), '{B-2}', 'and no others');
UPDATE head_office.bridge SET zone = 'America/New_York' WHERE bridge = 'SOUTH';
SELECT is((SELECT min(day) FROM head_office.haulier_ticket WHERE bridge = 'SOUTH'), '2025-12-31', 'their day is of the zone of the bridge');
SELECT * FROM finish();
ROLLBACK;
