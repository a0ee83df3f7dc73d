"""What `mmachine` writes, read again: refusals, reports, traces, audits, replies of the debugger. docs/FORMATS.md has the lines."""
