"""What the answers of a daemon's console say, as docs/FORMATS.md has them."""

from __future__ import annotations

from collections.abc import Iterable
from dataclasses import asdict, dataclass


@dataclass(frozen=True)
class Group:
    """A group as the daemon of a site shows it."""

    number: int
    view: int
    """The last view that had a member at the site; 0 before the first."""
    holder: str | None
    """The first holder of the view's token, `SITE.SERIAL`. None without a view."""
    members: tuple[str, ...]
    """The view's members, `SITE.SERIAL` each; none without a view."""
    is_frozen: bool
    """Whether the group is changing its view, and takes no casts."""


def named_numbers(line: str) -> dict[str, int]:
    """The numbers of a line such as `events 12 kept 3`, by the words before them."""
    words = line.split(" ")
    return {name: int(word) for name, word in zip(words, words[1:]) if word.isascii() and word.isdigit()}


def domains_of(answer: Iterable[str]) -> dict[int, bool]:
    """Whether each domain runs, by the answer to `domains`."""
    return {named_numbers(line)["domain"]: line.endswith(" running") for line in answer if line.startswith("domain ")}


def groups_of(answer: Iterable[str]) -> list[Group]:
    """The groups of a domain, by the answer to `groups D`; none where it has another answer. A `ValueError` where the
    line of a group has a form that is not known."""
    return [_group(line.split(" ")) for line in answer if line.startswith("group ")]


def _group(words: list[str]) -> Group:
    """The group of a line: `group G view V holder P members P P open`, or `frozen`; or `group G view V none`. A
    `ValueError` where the line has another form."""
    match words:
        case ["group", number, "view", view, "none"]:
            return Group(int(number), int(view), None, (), is_frozen=False)
        case ["group", number, "view", view, "holder", holder, "members", *members, "open" | "frozen" as state]:
            return Group(int(number), int(view), holder, tuple(members), state == "frozen")
    raise ValueError("of no group")


def values_of(answer: list[str]) -> list[dict]:
    """What the lines of an answer say, as JSON has it: names and values where the line has the form of an answer that
    has them, else `{"line": LINE}`."""
    return [_values(line) for line in answer]


def _values(line: str) -> dict:
    try:
        return _named_values(line)
    except (IndexError, KeyError, ValueError):
        return {"line": line}


def _named_values(line: str) -> dict:
    """The names and values of a line. An `IndexError`, `KeyError` or `ValueError` where it has none."""
    word, *words = line.split(" ")
    match word:
        case "domain" if len(words) == 2:
            ((domain, is_running),) = domains_of([line]).items()
            return {"domain": domain, "running": is_running}
        case "group":
            told = asdict(_group(line.split(" ")))
            return {"group": told.pop("number"), "frozen": told.pop("is_frozen"), **told}
        case "domain" | "events":
            return _pairs([word, *words])
        case "datagrams":
            return _pairs(words)
        case "record":
            return {"record": words[0], **_pairs(words[1:])}
        case "suspected":
            domain, site = map(int, words)
            return {"domain": domain, "suspected": site}
    return {"line": line}


def _pairs(words: list[str]) -> dict[str, int]:
    """Names, each with the number behind it. A `ValueError` where the words are anything else."""
    return {name: int(number) for name, number in zip(words[::2], words[1::2], strict=True)}
