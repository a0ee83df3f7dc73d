"""What editors want to know of a source: its mistakes with their places, its names, and what may stand somewhere. The
page of `mm serve` and the language server `mm lsp` use the same."""
