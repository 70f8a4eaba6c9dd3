"""The programs that scripts of this folder run and a fresh machine may lack, by their apt packages.

A script skips what needs a program that isn't here, and says so; tests/all names all of these at
its start.
"""
import shutil

TOOLS = {
    "bash": "bash",
    "cc": "gcc libc6-dev",
    "dpkg-deb": "dpkg",
    "git": "git",
    "go": "golang-go",
    "lintian": "lintian",
    "losetup": "mount",
    "man": "man-db",
    "mandoc": "mandoc",
    "mkfs.ext4": "e2fsprogs",
    "mount": "mount",
    "munged": "munge",
    "mypy": "mypy",
    "parallel": "parallel",
    "prlimit": "util-linux",
    "promtool": "prometheus",
    "ruff": "python3-pip, by `pip install ruff`",
    "sbatch": "slurm-client",
    "scancel": "slurm-client",
    "setpriv": "util-linux",
    "sinfo": "slurm-client",
    "slurmctld": "slurmctld",
    "slurmd": "slurmd",
    "squeue": "slurm-client",
    "ssh": "openssh-client",
    "ssh-keygen": "openssh-client",
    "sshd": "openssh-server",
    "strace": "strace",
    "systemctl": "systemd",
    "systemd-analyze": "systemd",
    "systemd-run": "systemd",
    "umount": "mount",
    "unshare": "util-linux",
    "xargs": "findutils",
}
PATH = "/usr/local/sbin:/usr/local/bin:/usr/sbin:/usr/bin:/sbin:/bin"


def lacking() -> str:
    """Returns a line with the programs that aren't here, and their packages; nothing where all
    are."""
    lost: dict[str, list[str]] = {}
    for name, package in TOOLS.items():
        if not (shutil.which(name) or shutil.which(name, path=PATH)):
            lost.setdefault(package, []).append(name)
    named = [f"{' '.join(names)} (apt: {package})" for package, names in lost.items()]
    return f"not installed, so what needs them is skipped: {', '.join(named)}" if named else ""
