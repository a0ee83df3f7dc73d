"""The cases, theme by theme."""
