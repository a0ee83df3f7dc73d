"""`mm view`: a run as one page for any browser, without network or server.

    data       the run as compact JSON: the machine before the first turn, and what each turn changed
    page       the page: the template with its style, its scripts and the data in it
    page.html  the template
    view.css   the style: light and dark, wide and narrow
    words.js   words, pointers and instructions spelled out
    replay.js  the machine after any turn, with key frames
    timeline.js, turn.js, slots.js, memory.js, others.js
               what is shown
    keeps.js   what a kernel keeps, on the pages that show it
    main.js    the cursor, the keys and the buttons"""
