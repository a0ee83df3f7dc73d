"""`mm dap`: a debug adapter for programs of `mmachine`, over the sessions of `mm debug`. `server` has the requests,
`looking` what is shown of a moment."""
