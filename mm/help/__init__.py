"""The texts of `mm help`: topics, and what is made from the tables of commands, operations, directives and faults."""
