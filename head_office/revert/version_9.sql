-- Removes the head office, unless something is registered or stored. sqitch also runs this if it can't record a change that was made, so it must never remove
-- an entry.
\set VERBOSITY terse
begin;
do $$
begin
    if to_regclass('head_office.bridge') is not null then
        lock table head_office.bridge in access exclusive mode;
        if exists (select from head_office.bridge) or exists (select from head_office.entry) then
            raise exception '%: the head office stays, because bridges are registered in it; restore a copy in place of a revert', current_database();
        end if;
    end if;
end $$;
set local client_min_messages = warning;
drop schema if exists head_office cascade;
commit;
