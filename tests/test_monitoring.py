"""What Prometheus and Grafana are given: rules of alerts, a configuration that scrapes three hosts, and a dashboard."""

from __future__ import annotations

import json
import pathlib
import re

from dist import InstalledCase, need, run
from harness import ROOT, Case
from castd_tools import metrics

RULES = ROOT / "dist/castd.rules.yml"
SCRAPING = ROOT / "dist/prometheus.yml"
DASHBOARD = ROOT / "dist/castd-dashboard.json"
# One value of each series, every 15 seconds.
INTERVAL = 15
WELL = {
    'up{job="castd"}': 1,
    'castd_up{site="1"}': 1,
    'castd_domain_running{site="1",domain="2"}': 1,
    'castd_domain_retired{site="1",domain="2"}': 0,
    'castd_home_silent{site="1",domain="2"}': 0,
    'castd_group_frozen{site="1",domain="2",group="3"}': 0,
    'castd_held_messages{site="1",domain="2"}': 80,
    'castd_held_messages_quota{site="1",domain="2"}': 100,
    'castd_sessions{site="1",domain="2"}': 8,
    'castd_sessions_quota{site="1",domain="2"}': 10,
    'castd_record_ended{site="1"}': 0,
    'castd_record_lost_events_total{site="1"}': 5,
}
# A series, the value that it takes after one minute, and the alert that fires then, so many seconds later.
FAULTS = (
    ('up{job="castd"}', 0, "CastdUnreached", 30),
    ('castd_up{site="1"}', 0, "CastdHangs", 0),
    ('castd_domain_running{site="1",domain="2"}', 0, "CastdDomainHalted", 0),
    ('castd_domain_retired{site="1",domain="2"}', 1, "CastdDomainRetired", 0),
    ('castd_home_silent{site="1",domain="2"}', 1, "CastdHomeSilent", 0),
    ('castd_group_frozen{site="1",domain="2",group="3"}', 1, "CastdGroupFrozen", 30),
    ('castd_held_messages{site="1",domain="2"}', 81, "CastdMessagesHeld", 0),
    ('castd_sessions{site="1",domain="2"}', 9, "CastdSessionsScarce", 0),
    ('castd_record_ended{site="1"}', 1, "CastdRecordIncomplete", 0),
    ('castd_record_lost_events_total{site="1"}', 6, "CastdRecordIncomplete", 0),
)
MINUTE = 60


def rules() -> list[dict[str, str]]:
    """The names and values of each rule, in the order of the file, whose form is always the same."""
    _, *found = RULES.read_text(encoding="utf-8").split("- alert: ")
    return [dict(re.findall(r"^ *(\w+): (.+)$", f"alert: {text}", re.MULTILINE)) for text in found]


def panels() -> list[str]:
    """The expressions of all panels."""
    dashboard = json.loads(DASHBOARD.read_text(encoding="utf-8"))
    return [target["expr"] for panel in dashboard["panels"] for target in panel["targets"]]


class Texts(Case):
    def test_each_metric_is_one_that_there_is(self):
        for name, expressions in (("rules", [rule["expr"] for rule in rules()]), ("panels", panels())):
            with self.subTest(name):
                named = set(re.findall(r"\bcastd_\w+", " ".join(expressions)))
                self.assertGreater(len(named), 8)
                self.assertLessEqual(named, metrics.NAMES)

    def test_each_alert_of_the_operations_is_a_rule_and_the_other_way_round(self):
        text = (ROOT / "docs/OPERATIONS.md").read_text(encoding="utf-8")
        (table,) = re.findall(r"^\| Alert \| Meaning \|\n\|---\|---\|\n((?:\|.*\n)+)", text, re.MULTILINE)
        made = []
        for rule in rules():
            _, _, section = rule["runbook"].partition("/OPERATIONS.md#")
            # As YAML has it, a text without quotes.
            self.assertNotRegex(rule["summary"], r": | #")
            made.append(f"| `{rule['alert']}` | [{rule['summary']}](#{section}) |")
        self.assertEqual(table.splitlines(), made)
        sections = {it.lower().replace(" ", "-") for it in re.findall(r"^## (.+)$", text, re.MULTILINE)}
        self.assertLessEqual(set(re.findall(r"\(#([\w-]+)\)", table)), sections)

    def test_each_panel_has_a_place_of_its_own(self):
        places = set()
        for panel in json.loads(DASHBOARD.read_text(encoding="utf-8"))["panels"]:
            at = panel["gridPos"]
            own = {(x, y) for x in range(at["x"], at["x"] + at["w"]) for y in range(at["y"], at["y"] + at["h"])}
            self.assertEqual(places & own, set(), panel["title"])
            self.assertLessEqual(at["x"] + at["w"], 24, panel["title"])
            places |= own


class Promtool(Case):
    """What Prometheus' own tool says."""

    def setUp(self):
        super().setUp()
        need(self, "promtool")

    def test_it_accepts_rules_and_configuration(self):
        for what, path in (("rules", RULES), ("config", SCRAPING)):
            with self.subTest(what):
                ran = run("promtool", "check", what, str(path))
                self.assertEqual(ran.returncode, 0, ran.stdout + ran.stderr)

    def test_it_accepts_what_a_keeper_serves(self):
        answers = {
            "datagrams": ["datagrams sent 5 received 6 lost 7 undecoded 8"],
            "record": ["record running waiting 9 lost 1"],
        }
        for keeper in (self.keeper(self.setup_of(2)), self.stand_in(self.setup_of(), answers=answers)):
            ran = run("promtool", "check", "metrics", input=keeper.ask("metrics") + "\n")
            self.assertEqual((ran.returncode, ran.stdout, ran.stderr), (0, "", ""))

    def test_it_can_read_each_panel(self):
        recorded = [
            {"record": f"panel:{place}", "expr": it.replace("$__rate_interval", "1m")}
            for place, it in enumerate(panels())
        ]
        path = pathlib.Path(self.folder, "panels.yml")
        path.write_text(json.dumps({"groups": [{"name": "panels", "rules": recorded}]}))
        ran = run("promtool", "check", "rules", str(path))
        self.assertEqual(ran.returncode, 0, ran.stdout + ran.stderr)

    def test_each_alert_fires_by_its_fault_and_no_other(self):
        tests = [_tested({}, [(MINUTE + 45, [])])]
        for series, value, alert, later in FAULTS:
            before = [(MINUTE + later - INTERVAL, [])]
            tests.append(_tested({series: value}, [*before, (MINUTE + later, [alert])]))
        path = pathlib.Path(self.folder, "tests.yml")
        path.write_text(json.dumps({"rule_files": [str(RULES)], "evaluation_interval": f"{INTERVAL}s", "tests": tests}))
        ran = run("promtool", "test", "rules", str(path))
        self.assertEqual(ran.returncode, 0, ran.stdout + ran.stderr)
        self.assertEqual({alert for _, _, alert, _ in FAULTS}, {rule["alert"] for rule in rules()})


def _tested(changed: dict[str, int], moments: list[tuple[int, list[str]]]) -> dict:
    """A test as promtool takes it: after a minute some series have another value, and alerts fire at these seconds."""
    steps = MINUTE // INTERVAL
    series = [
        {"series": name, "values": f"{value}x{steps - 1} {changed.get(name, value)}x{steps}"}
        for name, value in WELL.items()
    ]
    expected = [
        {
            "expr": 'count by (alertname) (ALERTS{alertstate="firing"})',
            "eval_time": f"{second}s",
            "exp_samples": [{"labels": f'{{alertname="{alert}"}}', "value": 1} for alert in alerts],
        }
        for second, alerts in moments
    ]
    return {"interval": f"{INTERVAL}s", "input_series": series, "promql_expr_test": expected}


class Installed(InstalledCase):
    def test_the_files_are_there(self):
        for path in (SCRAPING, DASHBOARD):
            installed = pathlib.Path(self.prefix, "share/castd", path.name)
            self.assertEqual(installed.read_bytes(), path.read_bytes())

    def test_an_alert_names_a_page_that_was_installed(self):
        installed = pathlib.Path(self.prefix, "share/castd/castd.rules.yml").read_text(encoding="utf-8")
        pages = set(re.findall(r"runbook: (.+)#", installed))
        self.assertEqual(pages, {f"{self.prefix}/share/doc/castd/OPERATIONS.md"})
        self.assertTrue(all(pathlib.Path(page).is_file() for page in pages))
