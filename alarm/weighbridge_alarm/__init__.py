"""Reports what is wrong at a bridge: by mail, by a webhook, or by the HTTP of an SMS gateway.

The morning it is made for: one bridge, one small PC under a desk, nobody who knows Linux. At 7 the owner gets a mail or an SMS that says in plain words what is
wrong, since when, and what to do. Nobody has to look at a screen.

The alarm only reads. It writes nothing but its own file, and never near the journal.

A timer runs it every minute. `looking` collects the faults: `health` reads the answers of counter and office, `copies` the file of the night, and `machine` what
the system says. `watch` decides which faults begin and end, `due` what each receiver must hear, and `words` writes it. These take the time as a value, and have
no sockets. `handing` passes a message on, `asking` speaks HTTP, and `state` has the file of what each receiver heard. `catalogue` has the words of each fault.
"""
