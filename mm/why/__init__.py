"""Derivations: the lines by which a group is granted a word, read and checked from the bytes of an image."""
