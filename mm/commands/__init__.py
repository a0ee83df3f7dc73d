"""The commands, a module for each or for those that belong together. Each has `run(console)`, which gives the exit status."""
