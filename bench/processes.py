"""What the measuring programs share: the wall time and the peak memory of whole processes, and how apt is asked."""

import os
import statistics
import subprocess
import sys
import time

# apt builds no cache on disk, and so reads its lists in each run.
NO_CACHE = ["-o", "Dir::Cache::pkgcache=", "-o", "Dir::Cache::srcpkgcache="]


def simulation(folder, name):
    """The command that has apt simulate the request to install the package over the status file of the folder."""
    status = os.path.join(folder, "status")
    return ["apt-get", "-s", "-o", f"Dir::State::status={status}", "--no-install-recommends", "install", name]


def measured(command, statuses=(0,)):
    """The wall time of a process in milliseconds, its peak memory in MiB, and what it prints. It has to end with one of these statuses."""
    start = time.perf_counter()
    process = subprocess.Popen(command, stdout=subprocess.PIPE)
    printed = process.stdout.read().decode()
    _, status, usage = os.wait4(process.pid, 0)
    wall = time.perf_counter() - start
    if os.waitstatus_to_exitcode(status) not in statuses:
        sys.exit(f"{sys.argv[0]}: {command[0]} ended with status {os.waitstatus_to_exitcode(status)}: {printed}")
    return wall * 1000, usage.ru_maxrss / 1024, printed


def table(commands, rounds, check):
    """Runs each command once a round, and prints a table of the times and the peak memory. `check` is handed each
    subject with what its command printed. It answers the median time of each subject."""
    times, peaks = {}, {}
    for _ in range(rounds):
        for subject, command in commands.items():
            wall, peak, printed = measured(command)
            check(subject, printed)
            times.setdefault(subject, []).append(wall)
            peaks[subject] = max(peaks.get(subject, 0), peak)
    print("| Subject | Median | Least | Most | Peak |\n|---|---|---|---|---|")
    medians = {subject: statistics.median(walls) for subject, walls in times.items()}
    for subject, walls in times.items():
        median = medians[subject]
        print(f"| {subject} | {median:.0f} ms | {min(walls):.0f} ms | {max(walls):.0f} ms | {peaks[subject]:.0f} MiB |")
    return medians
