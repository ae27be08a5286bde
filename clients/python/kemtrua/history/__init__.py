"""What ran: a database of executions, events and lines of clients, beside a hub's stores.

It is derived: from what the hub answered, from `qz_sched history` and from what nodes tell. Nothing that the store decides depends on it.
"""
