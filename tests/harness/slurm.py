"""Slurm on this machine, of a folder of its own: munge, the controller and one node.
"""

import os
import socket
import subprocess
import tempfile
import time

CONFIGURATION = """ClusterName=here
SlurmctldHost={host}(127.0.0.1)
SlurmUser=root
SlurmctldPort={port}
SlurmdPort={next}
AuthType=auth/munge
AuthInfo=socket={folder}/munge/socket,cred_expire=5
ProctrackType=proctrack/linuxproc
TaskPlugin=task/none
SelectType=select/cons_tres
SelectTypeParameters=CR_CPU
StateSaveLocation={folder}/state
SlurmdSpoolDir={folder}/spool
SlurmctldPidFile={folder}/slurmctld.pid
SlurmdPidFile={folder}/slurmd.pid
SwitchType=switch/none
MpiDefault=none
ReturnToService=2
SchedulerParameters=sched_interval=1,batch_sched_delay=0,bf_interval=1
NodeName={host} NodeAddr=127.0.0.1 CPUs={cores} State=UNKNOWN
PartitionName=all Nodes={host} Default=YES MaxTime=INFINITE State=UP OverSubscribe=FORCE:8
"""


class Cluster:
    """Slurm on this machine, of its own folder; None of it is left at the end."""

    def __enter__(self):
        self.folder = tempfile.mkdtemp(prefix="p")
        for name in ("munge", "state", "spool"):
            os.mkdir(f"{self.folder}/{name}", 0o700)
        os.chmod(self.folder, 0o711)
        key = f"{self.folder}/munge/key"
        with open(os.open(key, os.O_CREAT | os.O_WRONLY, 0o400), "wb") as file:
            file.write(os.urandom(1024))
        port = 20000 + os.getpid() % 20000
        settings = {"host": socket.gethostname().split(".")[0], "port": port, "next": port + 1, "folder": self.folder, "cores": os.cpu_count()}
        with open(f"{self.folder}/slurm.conf", "w", encoding="ascii") as file:
            file.write(CONFIGURATION.format(**settings))
        self.environment = {"SLURM_CONF": f"{self.folder}/slurm.conf"}
        munge = {name: f"{self.folder}/munge/{name}" for name in ("socket", "log-file", "pid-file", "seed-file")}
        self.running = [self.start(["munged", "-F", "--force", f"--key-file={key}", *(f"--{name}={path}" for name, path in munge.items())])]
        self.running += [self.start(["slurmctld", "-D"]), self.start(["slurmd", "-D"])]
        for _ in range(120):
            if b"idle" in self.said("sinfo", "-h", "-o", "%T"):
                return self
            time.sleep(0.5)
        self.__exit__()
        raise OSError("Slurm's node doesn't come up")

    def start(self, command):
        """A daemon, whose output goes to a file."""
        with open(f"{self.folder}/{command[0]}.out", "wb") as output:
            return subprocess.Popen(command, stdout=output, stderr=output, env={**os.environ, **self.environment})

    def said(self, *command):
        """What a command of Slurm's says."""
        return subprocess.run(command, env={**os.environ, **self.environment}, capture_output=True, timeout=60).stdout

    def __exit__(self, *_):
        for one in reversed(self.running):
            one.terminate()
        for one in self.running:
            one.wait(60)
        subprocess.run(["rm", "-rf", self.folder], check=True)
