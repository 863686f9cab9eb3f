"""What the scripts that run rt share: how many processors and how much memory they may use, counted
as rt counts them, how they end at a signal, and what `rt ci` says of crates that are not proved.
"""
import os
import re
import signal
import sys

CGROUP = "/sys/fs/cgroup"
# The line for a crate whose library failed is longer.
NOT_PROVED = re.compile(r"rt: (.+) NOT PROVED\n?")


def number_in(file, pattern=r"(\d+)"):
    """Returns the number that the pattern finds in a file, or None."""
    try:
        with open(file, encoding="utf-8") as it:
            found = re.search(pattern, it.read())
    except OSError:
        return None
    return int(found[1]) if found else None


def processors():
    """Returns how many processors this process may use, also within the quota of its control
    group."""
    found = len(os.sched_getaffinity(0))
    for quota, period in [
        (f"{CGROUP}/cpu.max", (f"{CGROUP}/cpu.max", r" (\d+)")),
        (f"{CGROUP}/cpu/cpu.cfs_quota_us", (f"{CGROUP}/cpu/cpu.cfs_period_us",)),
    ]:
        quota, period = number_in(quota, r"^(\d+)"), number_in(*period)
        if quota and period:
            found = min(found, max(quota // period, 1))
    return found


def free_memory():
    """Returns the bytes that are free, also within the limit of the control group, or None if
    unknown."""
    free = number_in("/proc/meminfo", r"MemAvailable:\s+(\d+)")
    found = [1024 * free] if free is not None else []
    for limit, held, pattern in [
        (f"{CGROUP}/memory.max", f"{CGROUP}/memory.stat", r"(?m)^anon (\d+)"),
        (
            f"{CGROUP}/memory/memory.limit_in_bytes",
            f"{CGROUP}/memory/memory.stat",
            r"(?m)^total_rss (\d+)",
        ),
    ]:
        limit, held = number_in(limit), number_in(held, pattern)
        if limit is not None and held is not None:
            found.append(limit - held)
    return min(found, default=None)


def end_at_signals():
    """Makes each signal that asks a process to end raise SystemExit. A signal that the caller
    ignores, as nohup does, stays ignored."""
    for it in (signal.SIGHUP, signal.SIGINT, signal.SIGQUIT, signal.SIGTERM):
        if signal.getsignal(it) is not signal.SIG_IGN:
            signal.signal(it, lambda number, _: sys.exit(128 + number))


class Failures:
    """How the check of each crate ended that was not proved, in at most so many lines."""

    def __init__(self, most):
        self.most, self.check, self.told = most, [], []

    def read(self, line):
        """Takes the next line of `rt ci`."""
        if line.startswith("== "):
            self.check = []
        # These are many, and none of them says what failed.
        if not line.endswith(": proved\n") and not line.startswith("statements "):
            self.check.append(line)
        found = NOT_PROVED.fullmatch(line)
        if found:
            self.told.append(f"== {found[1]} NOT PROVED: its check ended thus\n")
            self.told += self.check[-self.most :]
