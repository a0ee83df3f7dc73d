"""What people see: reports, traces, audits, instructions and pointers with names."""
