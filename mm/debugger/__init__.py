"""The interactive debugger. A run is the same however often it is made, so a moment of it is a number of cycles: what the machine is then
is the report of `mmachine run`, and what led there are the turns of `mmachine trace`. Nothing that is typed changes the run."""
