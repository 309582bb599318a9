"""Commands and pushes as lines of text, as all line tools read and print them."""

from __future__ import annotations

import re

from .codec import Cast, Closed, Command, Deliver, Denied, Ejected, Join, Kind, Leave, Opened, Pass, Process, Push, Reply, View
from .errors import Code


def process_of(text: str) -> Process:
    """The process that a text such as `2.1` names. ValueError where it is no such text."""
    if not (named := re.fullmatch(r"([1-9][0-9]{0,4})\.([1-9][0-9]{0,9})", text)):
        raise ValueError(f"no process: {text}")
    return Process(int(named[1]), int(named[2]))


def command_of(line: str) -> Command:
    """The command that a line such as `cast 1 hello` is. ValueError where it is none."""
    word, _, rest = line.partition(" ")
    number, gap, text = rest.partition(" ")
    if not re.fullmatch("[1-9][0-9]{0,4}", number):
        raise ValueError(f"no group: {number}")
    match word, gap + text:
        case "join", "":
            return Join(int(number))
        case "leave", "":
            return Leave(int(number))
        case "cast", _:
            return Cast(int(number), Kind.CAUSAL, text.encode(errors="surrogateescape"))
        case "abcast", _:
            return Cast(int(number), Kind.ATOMIC, text.encode(errors="surrogateescape"))
        case "pass", _:
            return Pass(int(number), process_of(text))
    raise ValueError(f"no command: {word}")


def text_of(push: Push) -> str:
    """A push as one line. Bytes of a payload that are no UTF-8 are in it as Python's surrogate escapes."""
    match push:
        case Opened(process):
            return f"opened {process}"
        case Reply(tag, code):
            return f"reply {tag} {named(code)}"
        case View(group, view, members, holder):
            words = ["view", group, view, *(["holder", holder] if holder else []), "members", *members]
            return " ".join(map(str, words))
        case Deliver(group, view, process, count, kind, payload):
            text = f"deliver {group}/{view}/{process}/{count} {kind.name.lower()}"
            return f"{text} {shown(payload)}" if payload else text
        case Ejected(group, view):
            return f"ejected {group} {view}"
        case Denied(group, code):
            return f"denied {group} {named(code)}"
        case Closed(code):
            return f"closed {named(code)}"


def named(code: Code) -> str:
    return f"{int(code)} {code.text}" if code else "0"


def shown(payload: bytes) -> str:
    """A payload on one line."""
    text = payload.decode(errors="surrogateescape")
    return re.sub(r"[\0-\x1f\x7f\\]", lambda found: f"\\x{ord(found[0]):02x}", text)
