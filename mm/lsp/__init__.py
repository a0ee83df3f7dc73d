"""`mm lsp`: a language server for sources of `mmachine`. `frames` is the way of messages, which `mm.dap` has too;
`server` has the requests, and `mm.editing` what is answered."""
