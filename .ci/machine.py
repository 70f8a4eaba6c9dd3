"""What this machine has to spare: processors, memory and room on a disk.

A control group, as a container's, can give less than the machine has.
"""
import os
import re
import shutil

# A file with a group's limit, and the file and the form of what the limit is compared with: time of
# processors in each period, and memory in use. The first row of each is of control groups 2.
QUOTAS = (("/sys/fs/cgroup/cpu.max", "/sys/fs/cgroup/cpu.max", r" (\d+)"),
          ("/sys/fs/cgroup/cpu/cpu.cfs_quota_us", "/sys/fs/cgroup/cpu/cpu.cfs_period_us", r"(\d+)"))
LIMITS = (("/sys/fs/cgroup/memory.max", "/sys/fs/cgroup/memory.stat", r"anon (\d+)"),
          ("/sys/fs/cgroup/memory/memory.limit_in_bytes", "/sys/fs/cgroup/memory/memory.stat",
           r"total_rss (\d+)"))
# The most that a check of the gate takes: that of a crate of tests over most others.
OF_A_CHECK = 4_500_000_000


def number_in(path: str, form: str) -> int | None:
    """Returns the number that a file has in this form, if it has one."""
    try:
        with open(path, encoding="utf-8") as file:
            found = re.search(form, file.read())
    except OSError:
        return None
    return int(found[1]) if found else None


def processors() -> int:
    """Returns how many processors there are to use."""
    found = len(os.sched_getaffinity(0))
    for limit, path, form in QUOTAS:
        quota, period = number_in(limit, r"^(\d+)"), number_in(path, form)
        if quota and period:
            found = min(found, max(quota // period, 1))
    return found


def memory() -> int:
    """Returns how many bytes of memory are free."""
    found = [1024 * (number_in("/proc/meminfo", r"MemAvailable:\s+(\d+)") or 0)]
    for path, used, form in LIMITS:
        limit, held = number_in(path, r"^(\d+)"), number_in(used, form)
        if limit and held is not None:
            found.append(limit - held)
    return min(found)


def disk(folder: str) -> int:
    """Returns how many bytes are free on the disk of a folder."""
    return shutil.disk_usage(folder).free


def checks_at_once() -> int:
    """Returns how many checks of the gate fit side by side."""
    return max(1, min(processors(), memory() // OF_A_CHECK))


if __name__ == "__main__":
    print(checks_at_once())
