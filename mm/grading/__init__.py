"""What an exercise expects of a program, read from a text that a teacher can change, and whether a program is so.

    lines      the kinds of lines that a text can have: how each is written, and what it means
    values     the values that lines expect
    sheet      the text of an exercise: its runs, what is expected of each, the answers and fakes that it is tried with
    draws      inputs that are drawn for each grading
    inputs     a program with other inputs
    program    a program under one of these runs: its report, its log, its audit, its outcomes
    ran        what a run did: the instructions that were carried out, and the words that its slots held
    checks     the lines that look at the end of a run, at the audit and at the outcomes
    official   the line that compares a run with one of the exercise's own answer
    doings     the lines that look at what a run did
    parts      the lines that look at the parts of a program that were given, and at how its threads begin
    keeping    the line that asks what a gate keeps
    marks      a mark for each line
    answers    the files of students, and which of them are refused
    worker     grades one answer in a process of its own, with limits
    told       marks as text, as CSV and as JSON"""
