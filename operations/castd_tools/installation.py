"""The sites of a configuration that run on this host: those whose keepers have a control socket here."""

from __future__ import annotations

import argparse
import os
from dataclasses import dataclass

from castd_tools import control
from castd_tools.command_line import Failure
from castd_tools.configuration import Configuration, ConfigurationError, read
from castd_tools.statuses import CONFIGURATION, UNREACHED

SITE = "{site}"
"""Stands for the number of a site in the path of its control socket."""


def socket_pattern(text: str) -> str:
    """The path of the control sockets of all sites. An error of the command line where it has no number of a site."""
    if SITE not in text:
        raise argparse.ArgumentTypeError(f"{text!r} has no {SITE}, which stands for the number of the site")
    return text


@dataclass(frozen=True)
class Installation:
    """A configuration, and where the keepers of its sites have their control sockets."""

    config: str
    """The path of the configuration."""
    configuration: Configuration
    pattern: str
    """The path of the control sockets, with `{site}` in place of the number."""

    def control_socket(self, site: int) -> str:
        """Where the keeper of a site has its control socket, if the site runs on this host."""
        return self.pattern.replace(SITE, str(site))

    def running(self) -> dict[int, str]:
        """The control socket of each site that runs on this host now, by the number of the site, in rising order."""
        paths = {site: self.control_socket(site) for site in sorted(self.configuration.sites)}
        return {site: path for site, path in paths.items() if os.path.exists(path)}

    def some_running(self) -> dict[int, str]:
        """As `running`, but a `Failure` where no site runs on this host."""
        found = self.running()
        if not found:
            raise Failure(UNREACHED, f"{self.config}: no site runs on this host: there is no {self.pattern}")
        return found


def read_installation(config: str, pattern: str | None) -> Installation:
    """The installation of a configuration. The control sockets have the usual paths if no pattern is given.

    A `Failure` where the configuration is at fault.
    """
    try:
        return Installation(config, read(config), pattern or control.path_of(SITE))
    except ConfigurationError as error:
        raise Failure(CONFIGURATION, str(error)) from error
