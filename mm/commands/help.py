"""`mm help`."""

from __future__ import annotations

from mm.console import Console
from mm.help.fold import fold
from mm.help.overview import overview
from mm.status import Status, usage


def run_topic(console: Console, topic: str) -> int:
    """Writes the text of a topic, or the overview."""
    if not topic:
        console.write(fold(overview()))
        return Status.DONE
    from mm.help.texts import all_topics, topic_lines
    from mm.names.expressions import nearest

    lines = topic_lines(topic) or topic_lines(topic + "s") or topic_lines(topic.rstrip("s"))
    if lines is None:
        near = nearest(topic.lower(), all_topics())
        raise usage(
            f"mm: there is no topic `{topic}`" + (f"; do you mean `{near}`?" if near else ""),
            "    `mm help` lists the topics",
        )
    console.write(fold(lines))
    return Status.DONE


def run(console: Console) -> int:
    words = console.words[1:] if console.words[:1] == ["fault"] and len(console.words) > 1 else console.words
    return run_topic(console, " ".join(words))
