"""What test_booted does on a machine on which castd was installed and systemd runs. Prints what came of it, as JSON.

usage: booted_check.py PLAN    PLAN is that of the configuration; its domains have the tenants orders and quotes
"""

from __future__ import annotations

import json
import os
import pathlib
import stat
import subprocess
import sys
import time

PATIENCE = 20.0
CONFIG = "/etc/castd.conf"
TENANTS = ("orders", "quotes")
# The users, each with the group beside its own: two programs' users, an operator, and one of nobody's group.
USERS = {"alice": "orders", "bob": "quotes", "oscar": "castd", "eve": ""}
CLIENTS = "/usr/local/lib/castd/python"
RECORDING = """\
[Service]
StateDirectory=castd castd/record-%i
ExecStart=
ExecStart=/usr/local/bin/castd-keeper /etc/castd.conf --site %i --program /usr/local/bin/castd --record /var/lib/castd/record-%i
"""
JOIN_ONCE = str(pathlib.Path(__file__).with_name("join_once.py"))


def run(*words: str) -> subprocess.CompletedProcess:
    return subprocess.run(words, capture_output=True, text=True, timeout=PATIENCE, check=False)


def status(*words: str) -> int:
    return run(*words).returncode


def as_user(user: str, *words: str) -> subprocess.CompletedProcess:
    return run("setpriv", f"--reuid={user}", f"--regid={user}", "--init-groups", *words)


def prepare(plan: str) -> None:
    """Does what docs/OPERATIONS.md tells an operator to do."""
    run("systemd-sysusers")
    for tenant in TENANTS:
        run("groupadd", tenant)
    for user, group in USERS.items():
        run("useradd", *(["--groups", group] if group else []), user)
    lines = "".join(f"d /run/castd/{tenant} 2750 castd {tenant}\n" for tenant in TENANTS)
    pathlib.Path("/etc/tmpfiles.d/castd-tenants.conf").write_text(lines)
    run("systemd-tmpfiles", "--create")
    pathlib.Path(CONFIG).write_text(run("castd-conf", "make", plan).stdout)


def start_home() -> None:
    """Starts the home of all domains, site 102, which makes its sockets elsewhere."""
    config = "/castd-test/home.conf"
    pathlib.Path(config).write_text(pathlib.Path(CONFIG).read_text().replace("/run/castd/", "/castd-test/home-"))
    for tenant in TENANTS:
        os.mkdir(f"/castd-test/home-{tenant}")
    # It ends with the container.
    words = ["castd", "serve", config, "--site", "102"]
    home = subprocess.Popen(words, stdin=subprocess.PIPE, stdout=subprocess.PIPE, text=True)
    if home.stdout.readline() != "ready\n":
        sys.exit("the home does not serve")


def shown(unit: str, *names: str) -> dict[str, str]:
    """Properties of a unit."""
    told = run("systemctl", "show", unit, *(f"--property={name}" for name in names)).stdout
    return dict(line.split("=", 1) for line in told.splitlines())


def look_at(path: str) -> str:
    """The mode, the user and the group of a file. None of them where it is not there."""
    try:
        found = os.stat(path)
    except FileNotFoundError:
        return "missing"
    return f"{stat.filemode(found.st_mode)} {pathlib.Path(path).owner()} {pathlib.Path(path).group()}"


def daemon_of(unit: str) -> int:
    """The process of the daemon that the keeper of a unit has started."""
    keeper = shown(unit, "MainPID")["MainPID"]
    return int(pathlib.Path(f"/proc/{keeper}/task/{keeper}/children").read_text())


def confinement(process: int) -> dict[str, str]:
    """What a process may do, as the system tells it."""
    lines = pathlib.Path(f"/proc/{process}/status").read_text().splitlines()
    fields = dict(line.split(":\t", 1) for line in lines if ":\t" in line)
    return {name: fields[name] for name in ("NoNewPrivs", "Seccomp", "CapEff", "CapBnd")}


def joins(user: str, tenant: str) -> int:
    """How a program ends that joins: with 0, or the number of an error."""
    return as_user(user, "python3", JOIN_ONCE, CLIENTS, f"/run/castd/{tenant}/castd.sock").returncode


def next_number(site: int) -> int:
    return int(run("castd-conf", "next", CONFIG, "--site", str(site)).stdout)


def wait_while(unit: str, states: tuple[str, ...]) -> str:
    """The state of a unit once it is none of these."""
    end = time.monotonic() + PATIENCE
    while (state := shown(unit, "ActiveState")["ActiveState"]) in states and time.monotonic() < end:
        time.sleep(0.05)
    return state


def record_all() -> None:
    """Has the daemons that are started from here on recorded, as docs/OPERATIONS.md tells an operator."""
    folder = pathlib.Path("/etc/systemd/system/castd@.service.d")
    folder.mkdir()
    (folder / "record.conf").write_text(RECORDING)
    run("systemctl", "daemon-reload")


def first_daemon() -> dict:
    """The daemon of site 101 serves, and is stopped."""
    found = {"start": status("systemctl", "start", "castd@101")}
    found["active"] = shown("castd@101", "ActiveState", "SubState")
    for tenant in TENANTS:
        found[f"directory of {tenant}"] = look_at(f"/run/castd/{tenant}")
        found[f"socket of {tenant}"] = look_at(f"/run/castd/{tenant}/castd.sock")
    found["control socket"] = look_at("/run/castd-101/control")
    found["joins"] = {f"{user} {tenant}": joins(user, tenant) for user in USERS for tenant in TENANTS}
    found["castctl"] = {user: as_user(user, "castctl", "101", "domains").returncode for user in USERS}
    daemon = daemon_of("castd@101")
    found["confinement"] = confinement(daemon)
    found["user"] = pathlib.Path(f"/proc/{daemon}").owner()
    found["jemalloc"] = "libjemalloc" in pathlib.Path(f"/proc/{daemon}/maps").read_text()
    found["watch"] = status("systemctl", "start", "castd-watch@101")
    time.sleep(1)
    found["watch while it runs"] = shown("castd-watch@101", "ActiveState")["ActiveState"]
    begun = time.monotonic()
    found["stop"] = status("systemctl", "stop", "castd@101")
    found["seconds to stop"] = time.monotonic() - begun
    found["stopped"] = shown("castd@101", "ActiveState", "Result", "ExecMainStatus")
    found["watch behind it"] = wait_while("castd-watch@101", ("active", "deactivating"))
    found["socket behind it"] = look_at("/run/castd/orders/castd.sock")
    return found


def later_daemons() -> dict:
    """The host goes on under other numbers alone, also where a daemon was killed."""
    found = {"again": status("systemctl", "start", "castd@101"), "refused": shown("castd@101", "ExecMainStatus")}
    found["next"] = next_number(101)
    found["start"] = status("systemctl", "start", f"castd@{found['next']}")
    found["joins"] = joins("alice", "orders")
    os.kill(daemon_of(f"castd@{found['next']}"), 9)
    found["killed"] = wait_while(f"castd@{found['next']}", ("active", "deactivating"))
    time.sleep(1)
    found["restarts"] = shown(f"castd@{found['next']}", "NRestarts", "ActiveState")
    found["third"] = next_number(101)
    record_all()
    found["start of third"] = status("systemctl", "start", f"castd-watch@{found['third']}")
    found["third runs"] = shown(f"castd@{found['third']}", "ActiveState")["ActiveState"]
    found["joins the third"] = joins("alice", "orders")
    found["stop of third"] = status("systemctl", "stop", f"castd@{found['third']}")
    record = f"/var/lib/castd/record-{found['third']}"
    found["directory of the record"] = look_at(record)
    found["files of the record"] = sorted(path.name for path in pathlib.Path(record).glob("*"))
    found["replay"] = run("castd", "replay", record).stdout
    return found


def main() -> None:
    prepare(sys.argv[1])
    start_home()
    found = {"first": first_daemon(), "later": later_daemons()}
    found["journal"] = run("journalctl", "--no-pager", "--output=cat", "--unit=castd@*", "--unit=castd-watch@*").stdout
    print(json.dumps(found))


main()
