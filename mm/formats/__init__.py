"""The files of the machine, as docs/FORMATS.md describes them: what a file is, images, objects and schedules."""
