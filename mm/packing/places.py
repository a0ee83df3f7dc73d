"""Where each file of a checkout or a package belongs under a prefix."""

from __future__ import annotations

import posixpath

from mm.packing.tree import PROGRAM, Entry, Tree

HOME = "share/mmachine"
PAGES = "share/doc/mmachine"
LIST = f"{HOME}/installed"
# A file, or a folder that ends with `/` and goes whole, and where it belongs. One may belong to several places.
PLACES = (
    (PROGRAM, PROGRAM),
    ("bin/mm", f"{HOME}/bin/mm"),
    ("mm/", f"{HOME}/mm/"),
    ("docs/mm.1", "share/man/man1/mm.1"),
    ("docs/mmachine.1", "share/man/man1/mmachine.1"),
    ("editors/completions/mm.bash", "share/bash-completion/completions/mm"),
    ("editors/completions/mmachine.bash", "share/bash-completion/completions/mmachine"),
    ("editors/completions/_mm", "share/zsh/site-functions/_mm"),
    ("editors/completions/_mmachine", "share/zsh/site-functions/_mmachine"),
    ("editors/vim/", "share/vim/vimfiles/"),
    ("editors/vim/", "share/nvim/site/"),
    ("README.md", f"{PAGES}/README.md"),
    ("conformance/", f"{PAGES}/conformance/"),
    ("docs/", f"{PAGES}/docs/"),
    ("editors/", f"{PAGES}/editors/"),
    ("examples/", f"{PAGES}/examples/"),
)
# Links, and what they lead to. `mm` looks for the program beside itself first.
LINKS = (("bin/mm", f"{HOME}/bin/mm"), (f"{HOME}/bin/mmachine", PROGRAM))


def placed(tree: Tree) -> dict[str, Entry]:
    """All that an install writes, by its path under the prefix."""
    found = {}
    for start, to in PLACES:
        for path, entry in tree.items():
            if path == start:
                found[to] = entry
            elif start.endswith("/") and path.startswith(start):
                found[to + path[len(start) :]] = entry
    for path, to in LINKS:
        found[path] = Entry(link=posixpath.relpath(to, posixpath.dirname(path)))
    return dict(sorted(found.items()))
