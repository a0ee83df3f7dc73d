"""Two programs side by side on random images: what `tools/lockstep` does (docs/HARDWARE.md).

    dice      random choices that are the same with every Python
    world     pages, areas of memory, numbers and pointers of a random image
    code      random instructions, and what slots that handle faults run
    case      the image and the schedule of a number
    programs  a program as a command, and the lines that it writes as it runs
    compare   two logs turn by turn, up to the first difference
    lines     lines of logs as they come from simulators, and as people are told of them
    shorten   a schedule cut down while the two still differ
    shrink    a difference made small: from the state before it, with as little in the image as can be
    results   what came of each case, as JSON and for servers that read JUnit
    tell      the report of a difference
    vectors   operands and results of one operation
    tally     how often each operation had each outcome
    options   the words of the command
    main      the command"""
