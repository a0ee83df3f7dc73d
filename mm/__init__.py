"""`mm`: the machine with names and words, a front end for people over the proved program `mmachine`.

What it tells of a machine comes from `mmachine`. By itself it reads sources, objects, images and texts, whose formats are documented.

    main       from the words of a command line to a command, and how it ends
    table      the commands in their order, with their options; completions and the manual page are compared with it
    words      the words of a command line, read by that table
    console    what a command works with: its words, its streams, the program
    status     exit statuses
    version    which version this is
    commands   what each command does
    build      from files to an image with names
    machine    words, pointers, the table of operations, the faults, and the program `mmachine`
    formats    images, objects and schedules
    source     sources in the assembly language
    outputs    what `mmachine` writes, read again
    log        commit logs, and the machine after any turn
    waves      value change dumps
    view       runs as pages for a browser
    explore    every schedule: the answer of `mmachine`, where its findings come from, and who writes a word
    pictures   pictures for pages and slides, which `tools/draw` writes
    names      names for addresses
    messages   refusals in words
    views      what people see, and the forms of --json
    debugger   the interactive debugger
    help       texts of `mm help`
    packing    packages and installs, for `tools/package` and `tools/install`
    tests      tests (`python3 -m mm.tests`)

A command that comes later is a row of `table` and a module of `commands`; what it draws or translates is a package of its own beside `views`."""
