"""`mm dis`: an image or an object word by word."""

from __future__ import annotations

from mm.build import read_file
from mm.console import Console
from mm.formats.kinds import FileKind
from mm.named import NamedFile
from mm.status import Status
from mm.views.listing import ImageListing


def run(console: Console) -> int:
    """Of an object its canonical text, by `mmachine dis`; of an image or a source its words with addresses and names."""
    name = console.words[0]
    data = read_file(name)
    if FileKind.of(data) is FileKind.OBJECT:
        answer = console.ask(["dis", console.workshop.keep(data, ".obj")], [NamedFile(name, data)])
        console.write(answer.text.splitlines())
        return Status.DONE
    built = console.build([name])
    words = [
        (address, cell.word.bits)
        for address, cell in built.image.cells()
        if not cell.word.tagged and (cell.word.bits or built.symbols.origin(address))
    ]
    texts = console.workshop.texts([bits for _, bits in words])
    named = {address: text for (address, _), text in zip(words, texts)}
    console.write(ImageListing(built.image, built.symbols, named, console.style).lines())
    return Status.DONE
