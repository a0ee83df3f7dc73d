"""Every schedule of a program: what `mm explore` asks of `mmachine explore`, and what it adds to the answer.

    asked      how many configurations are looked at, and which faults are meant
    looking    the answer of `mmachine`: with progress on a terminal, and with fewer configurations where memory runs out
    progress   the line on a terminal that tells of a long search
    places     where each fault is met, and what the slots of an outcome wait for, by runs under its schedule
    wrote      the least schedule with which each group writes a word
    breadth    the configurations of a machine, in the order of their least schedules
    machine    the machine a second time, with `turn` for its turns and `parts` for what both are made of
"""
