"""What `.ci/truth` compares: each fact that `mm` tells of random programs with the texts of `mmachine`, which are read here a second
time, by nothing of `mm` itself.

    told      images, reports and logs, read from the bytes and the lines of `mmachine`
    names     names of a source and where they are, and words and instructions as `mm` spells them
    programs  random sources and images, with their schedules
    facts     what was compared, and what was wrong
    runs      the facts of run, solo, continue and trace
    others    the facts of audit, why, check-why, explore, symbols and debug
    kept      the facts of keeps, and of audits with the doors shut
    restated  what `mm` and its page say of the machine by themselves, against the program"""
