"""Who may connect: the programs of a tenant's group at the tenant's socket, and no others."""

from __future__ import annotations

import errno
import grp
import os
import pathlib
import pwd
import re
import shutil
import subprocess

from harness import PATIENCE, PROGRAM, ROOT, TESTS, Case, Tool


def umask_of_the_unit() -> str:
    (mask,) = re.findall(r"^UMask=(\d+)$", (ROOT / "dist/castd@.service").read_text(), re.MULTILINE)
    return mask


class Tenants(Case):
    """Two tenants with a group, a directory and a domain each. The daemon runs as castd, with the umask of the unit."""

    def setUp(self):
        super().setUp()
        self.need_root()
        os.chmod(self.folder, 0o755)
        for tenant in "ab":
            self.group(f"castd-test-{tenant}")
        self.user("castd")
        self.user("castd-test-1", "--groups", "castd-test-a")
        self.user("castd-test-2", "--groups", "castd-test-b")
        self.user("castd-test-3")
        # Other users cannot read the repository, perhaps.
        shutil.copytree(ROOT / "clients/python/castd", f"{self.folder}/clients/castd")
        for file in (TESTS / "join_once.py", PROGRAM):
            os.chmod(shutil.copy(file, self.folder), 0o755)
        self.make_directories()
        self.start_daemon()

    def group(self, name: str) -> None:
        subprocess.run(["groupadd", "--force", name], check=True)
        self.addCleanup(subprocess.run, ["groupdel", name], check=False, stderr=subprocess.DEVNULL)

    def user(self, name: str, *words: str) -> None:
        """Makes a user with a group of its own name. The user castd that is there before stays."""
        if name in {user.pw_name for user in pwd.getpwall()}:
            if name == "castd":
                return
            subprocess.run(["userdel", name], check=True)
        subprocess.run(["useradd", "--system", "--user-group", "--no-create-home", *words, name], check=True)
        self.addCleanup(subprocess.run, ["userdel", name], check=False, stderr=subprocess.DEVNULL)

    def make_directories(self) -> None:
        """Makes the directories of the tenants as the operator's lines for systemd-tmpfiles have them."""
        for tenant in "ab":
            path = f"{self.folder}/{tenant}"
            os.mkdir(path)
            os.chown(path, pwd.getpwnam("castd").pw_uid, grp.getgrnam(f"castd-test-{tenant}").gr_gid)
            os.chmod(path, 0o2750)

    def socket(self, tenant: str) -> str:
        return f"{self.folder}/{tenant}/castd.sock"

    def start_daemon(self) -> None:
        text = '[[site]]\nnumber = 1\naddress = "127.87.3.1:7101"\n'
        for number, tenant in enumerate("ab", 1):
            fields = ("[[domain]]", f"number = {number}", "home = 1", "sites = [1]", "groups = [1]")
            text += "\n".join((*fields, f'socket = "{self.socket(tenant)}"', ""))
        config = f"{self.folder}/castd.conf"
        pathlib.Path(config).write_text(text)
        serve = f"umask {umask_of_the_unit()} && exec {self.folder}/{os.path.basename(PROGRAM)} serve {config} --site 1"
        user = ["--reuid=castd", "--regid=castd", "--clear-groups", "--pdeathsig=KILL"]
        self.daemon = Tool(["sh", "-c", serve], self.folder, inside=["setpriv", *user])
        self.addCleanup(self.daemon.end)
        self.assertEqual(self.daemon.line(PATIENCE), "ready")

    def joins(self, user: str, tenant: str) -> int:
        """How a program of a user ends that joins the domain of a tenant: with 0, or the number of an error."""
        who = ["setpriv", f"--reuid={user}", f"--regid={user}", "--init-groups"]
        words = [*who, "python3", f"{self.folder}/join_once.py", f"{self.folder}/clients", self.socket(tenant)]
        how = {"env": {"PATH": os.defpath}, "cwd": "/", "timeout": PATIENCE, "check": False}
        return subprocess.run(words, **how).returncode

    def test_a_tenant_connects_at_its_own_socket_alone(self):
        wanted = {
            ("castd-test-1", "a"): 0,
            ("castd-test-1", "b"): errno.EACCES,
            ("castd-test-2", "a"): errno.EACCES,
            ("castd-test-2", "b"): 0,
            ("castd-test-3", "a"): errno.EACCES,
            ("castd-test-3", "b"): errno.EACCES,
        }
        found = {(user, tenant): self.joins(user, tenant) for user, tenant in wanted}
        self.assertEqual(found, wanted)

    def test_a_socket_is_for_its_tenant_alone_where_the_directory_is_open(self):
        """The mode of the socket itself refuses others too."""
        for tenant in "ab":
            os.chmod(f"{self.folder}/{tenant}", 0o2755)
        self.assertEqual(self.joins("castd-test-1", "a"), 0)
        self.assertEqual(self.joins("castd-test-2", "a"), errno.EACCES)
        self.assertEqual(self.joins("castd-test-3", "b"), errno.EACCES)
