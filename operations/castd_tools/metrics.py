"""What a daemon shows, in the text format of Prometheus."""

from __future__ import annotations

import contextlib
from collections.abc import Awaitable, Callable, Iterable

from castd_tools.answers import Group, domains_of, groups_of, named_numbers
from castd_tools.daemon import Usage

GAUGE = "gauge"
COUNTER = "counter"
MEDIA_TYPE = "text/plain; version=0.0.4; charset=utf-8"

# Each metric that may be told: its name, its type, and what it says. They are told in this order.
_METRICS = (
    ("castd_up", GAUGE, "Whether the daemon answers on its console."),
    ("castd_build_info", GAUGE, "The version of the daemon, which is a label. The value is 1."),
    ("castd_uptime_seconds", GAUGE, "How long the daemon has run."),
    ("castd_resident_memory_bytes", GAUGE, "Resident memory of the daemon."),
    ("castd_open_descriptors", GAUGE, "Descriptors that the daemon has open."),
    ("castd_events_total", COUNTER, "Events that were taken."),
    ("castd_trace_events", GAUGE, "Events that are kept in the trace."),
    ("castd_datagrams_sent_total", COUNTER, "Datagrams that were sent."),
    ("castd_datagrams_received_total", COUNTER, "Datagrams that were received."),
    ("castd_datagrams_lost_total", COUNTER, "Datagrams that could not be sent."),
    ("castd_datagrams_undecoded_total", COUNTER, "Datagrams that came and could not be read."),
    ("castd_record_running", GAUGE, "Whether events are recorded."),
    ("castd_record_ended", GAUGE, "Whether the record has ended, though the daemon goes on."),
    ("castd_record_waiting_bytes", GAUGE, "Bytes that wait to be written to the record, or were written and still have their memory."),
    ("castd_record_lost_events_total", COUNTER, "Events that the record lacks."),
    ("castd_domain_running", GAUGE, "Whether the domain runs, and is not halted."),
    ("castd_domain_retired", GAUGE, "Whether programs of the domain are no longer served here, since the site was put out of it."),
    ("castd_home_silent", GAUGE, "Whether the home of the domain, which is another site, is silent."),
    ("castd_sessions", GAUGE, "Programs that are connected."),
    ("castd_sessions_quota", GAUGE, "Most programs that may be connected."),
    ("castd_held_messages", GAUGE, "Messages that are kept."),
    ("castd_held_messages_quota", GAUGE, "Most messages that may be kept."),
    ("castd_casts_total", COUNTER, "Casts that were accepted."),
    (
        "castd_group_view",
        GAUGE,
        "Number of the last view of the group that had a member at this site; 0 before the first.",
    ),
    ("castd_group_members", GAUGE, "Members of the view; 0 where none is at this site."),
    ("castd_group_frozen", GAUGE, "Whether the group is changing its view, and takes no casts."),
)
NAMES = {name for name, _, _ in _METRICS}

# The metrics that stand in the answer to a line, by the words before their numbers.
_TRACE = {"events": "castd_events_total", "kept": "castd_trace_events"}
_DATAGRAMS = {word: f"castd_datagrams_{word}_total" for word in ("sent", "received", "lost", "undecoded")}
_RECORD = {"waiting": "castd_record_waiting_bytes", "lost": "castd_record_lost_events_total"}
_SHOW = {"sessions": "castd_sessions", "held": "castd_held_messages", "casts": "castd_casts_total"}

Ask = Callable[[str], Awaitable[list[str]]]


class Exposition:
    """Metrics of one site."""

    def __init__(self, site: int):
        self._site = site
        self._samples: dict[str, list[str]] = {name: [] for name in NAMES}

    def add(self, name: str, value: float, **labels: int | str) -> None:
        """Adds a value."""
        self._samples[name].append(f"{sample_name(name, site=self._site, **labels)} {value}")

    def add_named(self, line: str, names: dict[str, str], **labels: int) -> None:
        """Adds those numbers of a line that have these names."""
        for word, number in named_numbers(line).items():
            if word in names:
                self.add(names[word], number, **labels)

    def lines(self) -> list[str]:
        """The lines of the text format. A metric without a value is left out."""
        lines = []
        for name, kind, told in _METRICS:
            if self._samples[name]:
                lines += [f"# HELP {name} {told}", f"# TYPE {name} {kind}", *self._samples[name]]
        return lines


def sample_name(name: str, **labels: int | str) -> str:
    """A metric with its labels, as they stand before the value. They have numbers and versions alone, so nothing is to
    be quoted."""
    told = ",".join(f'{label}="{text}"' for label, text in labels.items())
    return f"{name}{{{told}}}"


def samples_of(lines: Iterable[str]) -> dict[str, float]:
    """The values that the text format has, by what `sample_name` gives. A `ValueError` where a line has no value."""
    named = (line.rpartition(" ") for line in lines if not line.startswith("#"))
    return {name: float(value) for name, _, value in named}


async def add_answers(exposition: Exposition, ask: Ask, quota: Callable[[int, str], int]) -> None:
    """Adds what the daemon answers to lines, and the quotas. Lines that the daemon does not know add nothing, nor do
    answers of a form that is not known."""
    exposition.add_named(_only(await ask("trace")), _TRACE)
    exposition.add_named(_only(await ask("datagrams")), _DATAGRAMS)
    _add_record(exposition, _only(await ask("record")))
    for domain, is_running in domains_of(await ask("domains")).items():
        exposition.add("castd_domain_running", int(is_running), domain=domain)
        exposition.add("castd_sessions_quota", quota(domain, "sessions"), domain=domain)
        exposition.add("castd_held_messages_quota", quota(domain, "held"), domain=domain)
        exposition.add_named(_only(await ask(f"show {domain}")), _SHOW, domain=domain)
        with contextlib.suppress(ValueError):
            for group in groups_of(await ask(f"groups {domain}")):
                _add_group(exposition, domain, group)


def add_usage(exposition: Exposition, usage: Usage) -> None:
    exposition.add("castd_uptime_seconds", round(usage.uptime_seconds, 2))
    exposition.add("castd_resident_memory_bytes", usage.resident_bytes)
    exposition.add("castd_open_descriptors", usage.open_descriptors)


def _add_record(exposition: Exposition, line: str) -> None:
    if not line.startswith("record "):
        return
    exposition.add("castd_record_running", int(line.startswith("record running")))
    exposition.add("castd_record_ended", int(line == "record ended"))
    exposition.add_named(line, _RECORD)


def _add_group(exposition: Exposition, domain: int, group: Group) -> None:
    labels = {"domain": domain, "group": group.number}
    exposition.add("castd_group_view", group.view, **labels)
    exposition.add("castd_group_members", len(group.members), **labels)
    exposition.add("castd_group_frozen", int(group.is_frozen), **labels)


def _only(answer: list[str]) -> str:
    """The line of an answer that has one."""
    return answer[0] if answer else ""
