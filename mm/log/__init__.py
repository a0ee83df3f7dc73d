"""The commit log of a run: what `mmachine log` writes, read again, and the machine rebuilt from it after any turn (docs/FORMATS.md).

    changes  what a turn can change
    past     what came before a fault: where a pointer became a number, when a segment was cut out
    read     lines to turns with their changes
    replay   the machine that the image and the changes make, without carrying out any instruction
    taken    the log of a run of `mm`, with the cycles of its turns"""
