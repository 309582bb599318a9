"""What the keys of castd-top do: they ask, and say a line to the keeper of a site only after a `y`."""

from __future__ import annotations

import argparse
from collections.abc import Collection
from dataclasses import dataclass

from castd_tools.command_line import site_number, whole_number
from castd_tools.configuration import MOST_DOMAIN_NUMBER, Configuration
from castd_tools.console import STOP

HELP = "q end   s suspect   x stop   arrows, j, k, Page Up, Page Down scroll"
ENTER, BACKSPACE, ESCAPE = "enter", "backspace", "escape"

# What each key asks for, and how many numbers answer it.
_QUESTIONS = {"s": ("suspect which site, in which domain? ", 2), "x": ("stop site which? ", 1)}
_LONGEST_ANSWER = 40


@dataclass(frozen=True)
class Order:
    """A line for the keeper of a site, and what is asked before it is said."""

    site: int
    line: str
    question: str


class Refused(Exception):
    """Nothing is said. Its text says why."""


class Dialog:
    """Takes keys one by one. A key is its character, or a word such as `enter`."""

    def __init__(self, configuration: Configuration):
        self.is_over = False
        """Whether the user has ended it."""
        self._configuration = configuration
        self._message = ""
        # The key whose question is open, and what was typed since.
        self._asking, self._typed = "", ""
        # What waits for a `y`.
        self._order: Order | None = None

    @property
    def is_asking(self) -> bool:
        """Whether a question is open."""
        return bool(self._asking or self._order)

    @property
    def text(self) -> str:
        """The open question, else what came of the last one, else what the keys do."""
        if self._order:
            return f"{self._order.question} [y/N] "
        if self._asking:
            return _QUESTIONS[self._asking][0] + self._typed
        return self._message or HELP

    def tell(self, message: str) -> None:
        """Shows a message once no question is open, until the next key is taken."""
        self._message = message

    def press(self, key: str, running: Collection[int]) -> Order | None:
        """Takes a key, while these sites run on this host. Gives what is to be said now, if there is anything."""
        self._message = ""
        if self._order:
            return self._confirm(key)
        if self._asking:
            self._type(key, running)
        elif key in _QUESTIONS:
            self._asking, self._typed = key, ""
        elif key == "q":
            self.is_over = True
        return None

    def _confirm(self, key: str) -> Order | None:
        order, self._order = self._order, None
        if key == "y":
            self._message = f"{order.line}: said to site {order.site}, which has not answered yet"
            return order
        self._message = "nothing was said"
        return None

    def _type(self, key: str, running: Collection[int]) -> None:
        if key == BACKSPACE:
            self._typed = self._typed[:-1]
        elif key == ESCAPE:
            self._asking = ""
        elif key == ENTER:
            self._take_answer(running)
        elif len(key) == 1 and len(self._typed) < _LONGEST_ANSWER:
            self._typed += key

    def _take_answer(self, running: Collection[int]) -> None:
        asked, self._asking = self._asking, ""
        words = self._typed.replace(",", " ").split()
        if not words:
            return
        try:
            if len(words) != _QUESTIONS[asked][1]:
                two = "two numbers are needed: the site, then the domain"
                raise Refused(two if asked == "s" else "one number is needed")
            site = site_number(words[0])
            self._order = self._suspicion(site, words[1], running) if asked == "s" else _stop(site, running)
        except (Refused, argparse.ArgumentTypeError) as error:
            self._message = f"refused: {error}"

    def _suspicion(self, site: int, word: str, running: Collection[int]) -> Order:
        number = whole_number(word, 1, MOST_DOMAIN_NUMBER)
        domain = self._configuration.domains.get(number)
        if domain is None:
            raise Refused(f"the configuration has no domain {number}")
        if site not in domain.sites:
            raise Refused(f"domain {number} has no site {site}")
        if domain.home not in running:
            raise Refused(f"the home of domain {number} is site {domain.home}, which does not run here")
        line = f"suspect {number} {site}"
        return Order(domain.home, line, f"{line} at the home {domain.home}?")


def _stop(site: int, running: Collection[int]) -> Order:
    if site not in running:
        raise Refused(f"site {site} does not run here")
    return Order(site, STOP, f"stop site {site}?")
