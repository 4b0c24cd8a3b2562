"""Hosts on this machine that a user reaches by ssh: one daemon of a folder of its own, on a port of 127.0.0.1, with keys of its own.
"""

import contextlib
import getpass
import os
import shutil
import socket
import subprocess
import tempfile
import time

DAEMON = """Port {port}
ListenAddress 127.0.0.1
HostKey {folder}/host
AuthorizedKeysFile {folder}/user.pub
StrictModes no
UsePAM no
PermitRootLogin prohibit-password
PasswordAuthentication no
KbdInteractiveAuthentication no
MaxStartups 100
PidFile none
SetEnv {environment}
"""
CLIENT = """Host {hosts}
  HostName 127.0.0.1
  Port {port}
  User {user}
  IdentityFile {folder}/user
  IdentitiesOnly yes
  UserKnownHostsFile {folder}/known
  StrictHostKeyChecking no
  LogLevel ERROR
"""
# Where the daemon of root needs an empty folder.
EMPTY = "/run/sshd"


class Hosts:
    """Hosts of these names, whose shells have these variables. An `ssh` that knows them stands in a folder `bin`. None of it is left at the end."""

    def __init__(self, names, environment):
        self.names, self.environment = names, environment

    def __enter__(self):
        self.folder = tempfile.mkdtemp(prefix="p")
        for name in ("host", "user"):
            subprocess.run(["ssh-keygen", "-q", "-t", "ed25519", "-N", "", "-f", f"{self.folder}/{name}"], check=True, timeout=60)
        with socket.socket() as free:
            free.bind(("127.0.0.1", 0))
            port = free.getsockname()[1]
        environment = " ".join(f'"{name}={value}"' for name, value in self.environment.items())
        settings = {"port": port, "folder": self.folder, "environment": environment, "hosts": " ".join(self.names), "user": getpass.getuser()}
        for name, text in {"sshd_config": DAEMON, "config": CLIENT}.items():
            with open(f"{self.folder}/{name}", "w", encoding="utf-8") as file:
                file.write(text.format(**settings))
        os.mkdir(f"{self.folder}/bin")
        with open(f"{self.folder}/bin/ssh", "w", encoding="utf-8") as file:
            file.write(f'#!/bin/sh\nexec {shutil.which("ssh")} -F {self.folder}/config "$@"\n')
        os.chmod(f"{self.folder}/bin/ssh", 0o755)
        self.is_made = os.geteuid() == 0 and not os.path.isdir(EMPTY)
        if self.is_made:
            os.mkdir(EMPTY, 0o755)
        with open(f"{self.folder}/sshd.out", "wb") as output:
            self.daemon = subprocess.Popen([shutil.which("sshd"), "-D", "-e", "-f", f"{self.folder}/sshd_config"], stdout=output, stderr=output)
        for _ in range(120):
            if subprocess.run([f"{self.folder}/bin/ssh", self.names[0], "true"], capture_output=True, timeout=60).returncode == 0:
                return self
            time.sleep(0.25)
        said = self.said()
        self.__exit__()
        raise OSError(f"no host can be reached by ssh: {said!r}")

    def said(self):
        """What the daemon said."""
        with open(f"{self.folder}/sshd.out", "rb") as output:
            return output.read()

    def __exit__(self, *_):
        self.daemon.terminate()
        self.daemon.wait(60)
        if self.is_made:
            with contextlib.suppress(OSError):
                os.rmdir(EMPTY)
        shutil.rmtree(self.folder)
