"""Pictures for pages and slides, as SVG: with names, in light and dark, and with letters that can be read on a phone. `tools/draw` draws them.

    svg          shapes and texts, their colours in light and dark, and how far down they go
    parts        what several pictures have: tinted segments, boxes of turns, columns of an audit
    pointer      the 64 bits of a pointer taken apart
    permissions  which permission may become which
    tree         segments as a tree of powers of two
    states       the states of a slot that is served
    gate         a call of a gate, from the caller to the door and back
    trace        the turns of a run, tinted by the segments in which they ran
    audit        what the groups of an image, or of two beside each other, can reach
    reach        the reach of an image as a graph
    image        what stands in the memory of an image
    sweep        what a sweep takes away
    net          the nodes of a net and their links"""
