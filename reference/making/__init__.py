"""The parts of which generate.py makes sessions and calls, and generate_script.py scripts, from a random generator that they hand on:

    raw             records before packing, every part of which may be broken
    lagoons         valid lagoons: shapes, volumes, salt, water and releases
    damage          every kind of damage to a raw record, and to bytes whatever they mean

    lent            tables lent to a call: valid, damaged, longer and shorter; values at the edges of their ranges
    table_calls     arguments of the calls on tables: checks, steps, judging, cutting, writers
    record_calls    .. of the calls on records: lengths, reading, taking, the host's call
    field_calls     .. of the calls on a field: pages, stores, what the public reads; and of charges
    points          .. of the calls on survey points
    text            a script's text with other blanks and comments, and text that is no script
    largest         script 0: the largest tables and records

A maker has the name of its call, takes (rng, large, kinds) and gives the call's arguments; what it made of them it adds to kinds.
"""
