"""How much of this machine is free for work."""
from __future__ import annotations

import os


def free_memory() -> int:
    """The bytes that the system can give to new processes; 0 if it does not say."""
    with open("/proc/meminfo") as lines:
        return next((int(line.split()[1]) << 10 for line in lines if line.startswith("MemAvailable:")), 0)


def jobs_here(memory_of_a_job: int) -> int:
    """How many jobs that need so much memory can run at the same time: at least one, and at most one for each processor."""
    return max(1, min(len(os.sched_getaffinity(0)), free_memory() // memory_of_a_job))
