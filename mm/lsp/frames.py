"""Messages of the language server's and the debug adapter's protocols: JSON with its length before it."""

from __future__ import annotations

import json
import re
from typing import Any, BinaryIO, Optional

Json = Any
MOST_MESSAGE, MOST_HEAD = 64 << 20, 100
LENGTH = re.compile(rb"content-length: *([0-9]{1,9})", re.I)


class NoMessage(Exception):
    """Bytes that are no message: nothing that follows them can be read."""


def read_message(stream: BinaryIO) -> Optional[Json]:
    """The next message; none at the end."""
    length = None
    for at in range(MOST_HEAD):
        line = stream.readline(8192)
        if not line:
            if at:
                raise NoMessage("the input ends in the head of a message")
            return None
        line = line.strip()
        if not line:
            break
        found = LENGTH.fullmatch(line)
        length = int(found[1]) if found else length
    if length is None or length > MOST_MESSAGE:
        raise NoMessage("a message has no Content-Length, or is too long")
    data = stream.read(length)
    if len(data) < length:
        raise NoMessage("the input ends in a message")
    try:
        form = json.loads(data.decode("utf-8"))
    except (ValueError, RecursionError):
        raise NoMessage("a message is not JSON in UTF-8") from None
    if not isinstance(form, dict):
        raise NoMessage("a message is not an object of JSON")
    return form


def write_message(stream: BinaryIO, form: Json) -> None:
    """Writes a message, and sends it off."""
    data = json.dumps(form, separators=(",", ":")).encode()
    stream.write(b"Content-Length: %d\r\n\r\n" % len(data) + data)
    stream.flush()
