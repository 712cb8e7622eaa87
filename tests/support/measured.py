"""Runs a command, and reports what it took."""
import dataclasses
import os
import signal
import subprocess
import sys

# A process of its own starts the command, as the most memory of one that started another counts as that of the other, too.
MEASURE = """\
import os, sys, time
begun = time.monotonic()
_, status, used = os.wait4(os.posix_spawnp(sys.argv[2], sys.argv[2:], os.environ), 0)
taken = time.monotonic() - begun, used.ru_utime + used.ru_stime, used.ru_maxrss << 10, status
os.write(int(sys.argv[1]), " ".join(map(str, taken)).encode())
"""


@dataclasses.dataclass(frozen=True)
class Taken:
    """How a command ended, and what it took: seconds by the clock and of processors, and the most bytes of memory."""
    status: int
    seconds: float
    processor: float
    memory: int


def measured(command: list, timeout: float, **how) -> Taken:
    """Runs a command, found as a shell finds it, with these streams and this folder, for at most this number of seconds."""
    reading, writing = os.pipe()
    words = [sys.executable, "-IS", "-c", MEASURE, writing, *command]
    with open(reading, "rb") as told:
        with subprocess.Popen(list(map(str, words)), pass_fds=[writing], start_new_session=True, **how) as process:
            os.close(writing)
            try:
                process.wait(timeout)
            except BaseException:
                os.killpg(process.pid, signal.SIGKILL)
                raise
        seconds, processor, memory, status = told.read().split()
    return Taken(os.waitstatus_to_exitcode(int(status)), float(seconds), float(processor), int(memory))
