"""A Slurm cluster of this one machine, in a folder of its own: munged, slurmctld, and a slurmd for each node."""

from __future__ import annotations

import os
import pwd
import secrets
import shutil
import signal
import socket
import subprocess
from collections.abc import Sequence
from dataclasses import dataclass
from pathlib import Path

from conjtools.faults import RunFault
from conjtools.trial.daemons import PID_SUFFIX, WORD, end, end_all, send, start, wait_until

PROGRAMS = ("munged", "slurmctld", "slurmd", "sbatch", "sinfo", "scontrol", "snakemake")
KEY_BYTES = 1024
READY_SECONDS = 120.0
# A node that does not answer for so long is taken for lost; the cluster is asked whether it is for so long.
SLURMD_TIMEOUT = 10
LOST_SECONDS = 300.0
# MB that each node says it has.
NODE_MEMORY = 100_000
SYSTEM_PATHS = ("/usr/sbin", "/sbin")


@dataclass(frozen=True)
class Cluster:
    """A cluster: its folder and its nodes, and the environment in which its commands are run."""

    folder: Path
    nodes: tuple[str, ...]
    environment: dict[str, str]


def with_system_paths() -> dict[str, str]:
    """The environment, with the folders in which daemons stand."""
    return {**os.environ, "PATH": os.pathsep.join((os.environ.get("PATH", ""), *SYSTEM_PATHS))}


def missing_programs() -> list[str]:
    """The programs that a trial needs and that are not there."""
    return [name for name in PROGRAMS if shutil.which(name, path=with_system_paths()["PATH"]) is None]


def free_ports(count: int) -> list[int]:
    """Ports of this machine that nothing listens on."""
    sockets = [socket.socket() for _ in range(count)]
    try:
        for one in sockets:
            one.bind(("127.0.0.1", 0))
        return [int(one.getsockname()[1]) for one in sockets]
    finally:
        for one in sockets:
            one.close()


def configuration(folder: Path, nodes: Sequence[str], processors: int) -> str:
    """The text of slurm.conf: nodes of so many processors each, without accounting and without control groups."""
    host, user = socket.gethostname().partition(".")[0], pwd.getpwuid(os.getuid()).pw_name
    controller, *ports = free_ports(1 + len(nodes))
    lines = [
        "ClusterName=trial", f"SlurmctldHost={host}(127.0.0.1)", f"SlurmctldPort={controller}", f"SlurmUser={user}", f"SlurmdUser={user}",
        "AuthType=auth/munge", f"AuthInfo=socket={folder}/munge.socket", "CredType=cred/munge",
        "ProctrackType=proctrack/linuxproc", "TaskPlugin=task/none", "JobAcctGatherType=jobacct_gather/none",
        "AccountingStorageType=accounting_storage/none", "SelectType=select/cons_tres", "SelectTypeParameters=CR_Core", "MpiDefault=none",
        "SchedulerType=sched/builtin", f"StateSaveLocation={folder}/state", f"SlurmdSpoolDir={folder}/spool-%n",
        f"SlurmctldPidFile={folder}/slurmctld.number", f"SlurmdPidFile={folder}/slurmd-%n.number", f"SlurmctldLogFile={folder}/slurmctld.told",
        f"SlurmdLogFile={folder}/slurmd-%n.told", "SlurmdParameters=config_overrides", f"SlurmdTimeout={SLURMD_TIMEOUT}", "ReturnToService=2",
        "MinJobAge=900", "KillWait=5",
    ]  # fmt: skip
    for node, port in zip(nodes, ports):
        lines.append(f"NodeName={node} NodeHostname={host} NodeAddr=127.0.0.1 Port={port} CPUs={processors} RealMemory={NODE_MEMORY} State=UNKNOWN")
    lines.append(f"PartitionName=all Nodes={','.join(nodes)} Default=YES MaxTime=INFINITE State=UP")
    return "\n".join(lines) + "\n"


def bring_up(folder: Path, count: int, processors: int, token: str) -> Cluster:
    """Starts a cluster of so many nodes; RunFault where it does not come up."""
    nodes = tuple(f"n{number}" for number in range(1, count + 1))
    for name in ("state", *(f"spool-{node}" for node in nodes)):
        (folder / name).mkdir(exist_ok=True)
    key = folder / "munge.key"
    key.write_bytes(secrets.token_bytes(KEY_BYTES))
    key.chmod(0o400)
    (folder / "slurm.conf").write_text(configuration(folder, nodes, processors), "ascii")
    # Snakemake's own way wants USER.
    user = pwd.getpwuid(os.getuid()).pw_name
    environment = {**with_system_paths(), "SLURM_CONF": str(folder / "slurm.conf"), "USER": user, WORD: token}
    munged = [
        "munged", "--foreground", "--force", f"--socket={folder}/munge.socket", f"--key-file={key}", f"--pid-file={folder}/munged.number",
        f"--log-file={folder}/munged.told", f"--seed-file={folder}/munge.seed",
    ]  # fmt: skip
    start("munged", munged, folder, environment)
    if not wait_until((folder / "munge.socket").exists, READY_SECONDS):
        raise RunFault(f"munged does not come up: {folder}/munged.log")
    cluster = Cluster(folder, nodes, environment)
    start("slurmctld", ["slurmctld", "-D", "-f", str(folder / "slurm.conf")], folder, environment)
    for node in nodes:
        start_node(cluster, node)
    wait_for_nodes(cluster, nodes)
    return cluster


def daemon_of(node: str) -> str:
    """The name of the daemon of a node."""
    return f"slurmd-{node}"


def start_node(cluster: Cluster, node: str) -> None:
    """Starts the daemon of a node."""
    start(daemon_of(node), ["slurmd", "-D", "-N", node, "-f", str(cluster.folder / "slurm.conf")], cluster.folder, cluster.environment)


def silence(cluster: Cluster, node: str, how: signal.Signals) -> None:
    """Lets a node answer no more: its daemon is killed (SIGKILL), or hangs (SIGSTOP). What runs on the node runs on."""
    send(cluster.folder / f"{daemon_of(node)}{PID_SUFFIX}", how)


def need_lost(cluster: Cluster, node: str) -> None:
    """Waits until the cluster takes a node for lost."""
    if not wait_until(lambda: asked(cluster, "sinfo", "--noheader", "--Node", f"--nodes={node}", "--format=%t").startswith("down"), LOST_SECONDS):
        raise RunFault(f"{node} does not answer, and the cluster does not take it for lost: {cluster.folder}/slurmctld.told")


def wake(cluster: Cluster, node: str, how: signal.Signals) -> None:
    """Lets a node answer again that was silenced so, and waits until it is up and has nothing to do."""
    if how == signal.SIGSTOP:
        silence(cluster, node, signal.SIGCONT)
    else:
        end(cluster.folder / f"{daemon_of(node)}{PID_SUFFIX}")
        start_node(cluster, node)
    wait_for_nodes(cluster, (node,))


def asked(cluster: Cluster, *words: str) -> str:
    """What a command of the cluster prints, and nothing where it fails."""
    run = subprocess.run(words, env=cluster.environment, capture_output=True, text=True, timeout=60)
    return run.stdout if run.returncode == 0 else ""


def nodes_idle(cluster: Cluster) -> set[str]:
    """The nodes that are up and have nothing to do."""
    return set(asked(cluster, "sinfo", "--noheader", "--Node", "--states=idle", "--format=%N").split())


def wait_for_nodes(cluster: Cluster, nodes: Sequence[str]) -> None:
    """Waits until nodes are up and have nothing to do."""
    if not wait_until(lambda: nodes_idle(cluster) >= set(nodes), READY_SECONDS):
        raise RunFault(f"the nodes do not come up: {cluster.folder}/*.told")


def set_state(cluster: Cluster, node: str, state: str) -> None:
    """Tells the controller that a node is down, or that it is back."""
    reason = ["reason=trial"] if state == "down" else []
    asked(cluster, "scontrol", "update", f"nodename={node}", f"state={state}", *reason)


def take_down(folder: Path) -> None:
    """Ends the jobs and the daemons of the cluster in a folder, and nothing else."""
    configuration_file = folder / "slurm.conf"
    if configuration_file.exists() and (folder / "slurmctld.pid").exists():
        environment = {**with_system_paths(), "SLURM_CONF": str(configuration_file)}
        words = ["scancel", f"--user={pwd.getpwuid(os.getuid()).pw_name}"]
        try:
            subprocess.run(words, env=environment, stdin=subprocess.DEVNULL, stdout=subprocess.DEVNULL, stderr=subprocess.DEVNULL, timeout=10)
        except (OSError, subprocess.SubprocessError):
            pass
        wait_until(lambda: not queue(environment), 10.0)
    end_all(folder)


def queue(environment: dict[str, str]) -> str:
    """The jobs that a cluster still has."""
    try:
        return subprocess.run(["squeue", "--noheader"], env=environment, capture_output=True, text=True, timeout=5).stdout
    except (OSError, subprocess.SubprocessError):
        return ""
