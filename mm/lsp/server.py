"""The requests of a language server."""

from __future__ import annotations

from typing import Any, BinaryIO, Callable, Optional
from urllib.parse import unquote, urlsplit

from mm.build import Workshop
from mm.editing import words
from mm.editing.faults import Fault, column_of, faults_of, letters
from mm.lsp.frames import NoMessage, read_message, write_message
from mm.machine.program import Program
from mm.source.text import SourceText, read_source
from mm.source.tokens import Token
from mm.status import Refused, Status, Stop

Json = Any
NO_METHOD, BAD_PARAMS, NOT_READY, OWN_FAULT = -32601, -32602, -32002, -32603
KINDS = {"operation": 14, "directive": 14, "label": 18, "segment": 9, "register": 6, "permission": 20, "word": 12}
SYMBOLS = {"segment": 3, "label": 14}
CAN = {
    "textDocumentSync": {"openClose": True, "change": 1, "save": False},
    "hoverProvider": True,
    "definitionProvider": True,
    "referencesProvider": True,
    "documentSymbolProvider": True,
    "completionProvider": {"triggerCharacters": ["."]},
}


class Wrong(Exception):
    """A request that cannot be answered: the number of the protocol, and why."""

    def __init__(self, number: int, why: str) -> None:
        super().__init__(why)
        self.number = number


def path_of(uri: str) -> str:
    """The path that an address of a document says; the address itself where it is of no file."""
    parts = urlsplit(uri)
    return unquote(parts.path) if parts.scheme == "file" else uri


class Document:
    """An open source: its text, and what it says."""

    def __init__(self, uri: str, text: str) -> None:
        self.uri, self.data = uri, text.encode("utf-8", "surrogatepass")
        self.read: SourceText = read_source(path_of(uri), self.data)

    def place(self, params: Json) -> tuple[int, int]:
        """The line and the column, from 1 and in bytes, that a request asks about."""
        position = params["position"]
        line = int(position["line"]) + 1
        return line, column_of(self.read.line(line), int(position["character"]))

    def token(self, params: Json) -> Optional[tuple[int, Token]]:
        """The word that a request asks about, with its line."""
        line, column = self.place(params)
        token = words.word_at(self.read, line, column)
        return (line, token) if token else None

    def range(self, line: int, column: int, end: int) -> Json:
        said = self.read.line(line)
        return {"start": {"line": line - 1, "character": letters(said, column)},
                "end": {"line": line - 1, "character": letters(said, end)}}

    def of_place(self, place: words.Place) -> Json:
        return self.range(place.line, place.column, place.end)

    def definition(self, name: str) -> Optional[words.Place]:
        return words.definition(self.read, name)


def diagnostic(fault: Fault) -> Json:
    start, end = ({"line": fault.line - 1, "character": each} for each in (fault.begin, fault.end))
    message = "\n".join([fault.message, *(f"hint: {hint}" for hint in fault.hints)])
    return {"range": {"start": start, "end": end}, "severity": 1, "source": "mm", "message": message}


class Server:
    """A session with an editor."""

    def __init__(self, program: Optional[Program], read: BinaryIO, write: BinaryIO) -> None:
        self.program, self.input, self.output = program, read, write
        self.documents: dict[str, Document] = {}
        self.began = self.shut = False

    def loop(self) -> int:
        """Answers until the editor says that it is over; 1 where it just goes."""
        while True:
            try:
                message = read_message(self.input)
            except NoMessage:
                return Status.USAGE
            if message is None or message.get("method") == "exit":
                return Status.DONE if self.shut else Status.USAGE
            self.take(message)

    def take(self, message: Json) -> None:
        """Answers a request, or does what a notification says."""
        number, method = message.get("id"), message.get("method")
        if not isinstance(method, str):
            return  # An answer: nothing was asked.
        try:
            result = self.answer(method, message.get("params") or {}, number is None)
            if number is not None:
                write_message(self.output, {"jsonrpc": "2.0", "id": number, "result": result})
        except Wrong as wrong:
            self.refuse(number, wrong.number, str(wrong))
        except (KeyError, TypeError, ValueError, IndexError, AttributeError, OverflowError, RecursionError):
            self.refuse(number, BAD_PARAMS, f"{method}: the parameters are not those of the protocol")

    def refuse(self, number: Json, code: int, why: str) -> None:
        if number is not None:
            error = {"code": code, "message": why}
            write_message(self.output, {"jsonrpc": "2.0", "id": number, "error": error})

    def answer(self, method: str, params: Json, told: bool) -> Json:
        if method == "initialize":
            self.began = True
            return {"capabilities": CAN, "serverInfo": {"name": "mm"}}
        if not self.began:
            raise Wrong(NOT_READY, "the session has not begun")
        found = METHODS.get(method)
        if found is not None:
            return found(self, params)
        if told or method.startswith("$/"):
            return None
        raise Wrong(NO_METHOD, f"there is no request {method}")

    def document(self, params: Json) -> Document:
        uri = params["textDocument"]["uri"]
        if uri not in self.documents:
            raise Wrong(BAD_PARAMS, "the document is not open")
        return self.documents[uri]

    def shutdown(self, params: Json) -> None:
        self.shut = True

    def opened(self, params: Json) -> None:
        given = params["textDocument"]
        self.set(given["uri"], given["text"])

    def changed(self, params: Json) -> None:
        self.set(params["textDocument"]["uri"], params["contentChanges"][-1]["text"])

    def closed(self, params: Json) -> None:
        uri = params["textDocument"]["uri"]
        self.documents.pop(uri, None)
        self.publish(uri, [])

    def set(self, uri: str, text: str) -> None:
        """Takes the text of a document, and tells its mistakes."""
        document = self.documents[uri] = Document(uri, text)
        self.publish(uri, [diagnostic(fault) for fault in self.faults(document)])

    def publish(self, uri: str, found: list[Json]) -> None:
        params = {"uri": uri, "diagnostics": found}
        write_message(self.output, {"jsonrpc": "2.0", "method": "textDocument/publishDiagnostics", "params": params})

    def faults(self, document: Document) -> list[Fault]:
        """The mistakes that `mmachine` and `mm` find in a source; none where there is no program to ask."""
        if self.program is None:
            return []
        workshop, path = Workshop(self.program), document.read.path
        try:
            workshop.assemble(path, document.data)
        except Refused as refused:
            return list(faults_of(refused, {path: document.data}))
        except Stop:
            self.program = None
        finally:
            workshop.close()
        return []

    def hover(self, params: Json) -> Json:
        document = self.document(params)
        found = document.token(params)
        if found is None:
            return None
        line, token = found
        said = words.about(document.read, line, token)
        if not said:
            return None
        value = "\n".join(said)
        return {"contents": {"kind": "markdown", "value": f"```\n{value}\n```"},
                "range": document.range(line, token.column, token.end)}

    def defined(self, params: Json) -> Json:
        """Where the name at a place is defined: here, or in another open source."""
        asked = self.document(params)
        found = asked.token(params)
        if found is None:
            return None
        for document in (asked, *self.documents.values()):
            place = document.definition(found[1].text)
            if place:
                return {"uri": document.uri, "range": document.of_place(place)}
        return None

    def references(self, params: Json) -> Json:
        document = self.document(params)
        found = document.token(params)
        if found is None or document.definition(found[1].text) is None:
            return []
        return [{"uri": document.uri, "range": document.of_place(place)}
                for place in words.uses(document.read, found[1].text)]

    def symbols(self, params: Json) -> Json:
        document = self.document(params)
        made: list[Json] = []
        for name, kind, place, end in words.symbols(document.read):
            whole = {"start": {"line": place.line - 1, "character": 0},
                     "end": {"line": end - 1, "character": letters(document.read.line(end),
                         len(document.read.line(end)) + 1)}}
            row = {"name": name, "kind": SYMBOLS[kind], "range": whole, "selectionRange": document.of_place(place)}
            if kind == "segment":
                made.append({**row, "children": []})
            else:
                made[-1]["children"].append(row)
        return made

    def completion(self, params: Json) -> Json:
        document = self.document(params)
        line, column = document.place(params)
        begun = words.begun(document.read, line, column)
        return [
            {"label": offer.word, "kind": KINDS[offer.kind], "detail": offer.says,
             "textEdit": {"range": document.range(line, column - len(begun), column), "newText": offer.word}}
            for offer in words.offers(document.read, line, column)
            if offer.word.startswith(begun)
        ]


METHODS: dict[str, Callable[[Server, Json], Json]] = {
    "shutdown": Server.shutdown,
    "textDocument/didOpen": Server.opened,
    "textDocument/didChange": Server.changed,
    "textDocument/didClose": Server.closed,
    "textDocument/hover": Server.hover,
    "textDocument/definition": Server.defined,
    "textDocument/references": Server.references,
    "textDocument/documentSymbol": Server.symbols,
    "textDocument/completion": Server.completion,
}
