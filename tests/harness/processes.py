"""A process that a script starts.

SIGTERM ends a script that imports this by an exit of status 143, so that its blocks end too, and the processes that it has started.
"""

import contextlib
import os
import pathlib
import signal
import subprocess
import sys

SECONDS = 60
TICKS = os.sysconf("SC_CLK_TCK")


def own_processes():
    """All processes that this one has started and not waited for, by whichever thread."""
    for children in pathlib.Path("/proc/self/task").glob("*/children"):
        with contextlib.suppress(FileNotFoundError):
            yield from map(int, children.read_text(encoding="ascii").split())


def end_by_sigterm(*_):
    """Ends the script as a shell says of this signal. Its processes are killed before, since an exit waits for those of a pool. A second signal would
    cut off what the first has begun to end."""
    signal.signal(signal.SIGTERM, signal.SIG_IGN)
    for pid in own_processes():
        with contextlib.suppress(ProcessLookupError):
            os.kill(pid, signal.SIGKILL)
    sys.exit(128 + signal.SIGTERM)


signal.signal(signal.SIGTERM, end_by_sigterm)
# A process of a pool is ended by the signal itself: it would take an exit for an answer of its call, and go on.
os.register_at_fork(after_in_child=lambda: signal.signal(signal.SIGTERM, signal.SIG_DFL))


def sockets(pid):
    """The kernel's numbers of the sockets that a process has open."""
    found, folder = set(), f"/proc/{pid}/fd"
    for descriptor in os.listdir(folder):
        with contextlib.suppress(FileNotFoundError):
            kind, _, number = os.readlink(f"{folder}/{descriptor}").rstrip("]").partition(":[")
            found |= {number} if kind == "socket" else set()
    return found


class Process:
    """A started process, and what /proc says of it. It is killed at the end of its block."""

    def __init__(self, words, **settings):
        self.process = subprocess.Popen(words, **settings)
        self.pid = self.process.pid

    def is_running(self):
        return self.process.poll() is None

    def figure(self, name):
        """A figure of /proc/PID/status, in bytes where it has a unit; 0 where there is none."""
        with open(f"/proc/{self.pid}/status", encoding="ascii") as status:
            for line in status:
                if line.startswith(name + ":"):
                    value, *unit = line.split()[1:3]
                    return int(value) << (10 if unit else 0)
        return 0

    def resident(self):
        return self.figure("VmRSS")

    def peak(self):
        """The most resident memory since the start, or since `forget_peak`."""
        return self.figure("VmHWM")

    def forget_peak(self):
        with open(f"/proc/{self.pid}/clear_refs", "w", encoding="ascii") as references:
            references.write("5")

    def address_space(self):
        return self.figure("VmSize")

    def descriptors(self):
        return len(os.listdir(f"/proc/{self.pid}/fd"))

    def threads(self):
        return len(os.listdir(f"/proc/{self.pid}/task"))

    def children(self):
        with open(f"/proc/{self.pid}/task/{self.pid}/children", encoding="ascii") as children:
            return [int(child) for child in children.read().split()]

    def processor_seconds(self):
        """The processor time it has used, with the kernel's."""
        with open(f"/proc/{self.pid}/stat", encoding="ascii") as stat:
            fields = stat.read().rpartition(")")[2].split()
        return (int(fields[11]) + int(fields[12])) / TICKS

    def context_switches(self):
        """How often its threads have been switched."""
        total = 0
        for task in os.listdir(f"/proc/{self.pid}/task"):
            with open(f"/proc/{self.pid}/task/{task}/status", encoding="ascii") as status:
                total += sum(int(line.split()[1]) for line in status if "ctxt_switches" in line)
        return total

    @contextlib.contextmanager
    def stopped(self):
        """Stops it for a block; what clients do waits in the system, and arrives together when it goes on."""
        os.kill(self.pid, signal.SIGSTOP)
        try:
            yield
        finally:
            os.kill(self.pid, signal.SIGCONT)

    def wait(self, seconds=SECONDS):
        """Its status, output and standard error, once it has ended by itself."""
        output, errors = self.process.communicate(timeout=seconds)
        return self.process.returncode, output, errors

    def end(self, how=signal.SIGKILL):
        """Ends it by a signal; its status, output and standard error."""
        if self.is_running():
            self.process.send_signal(how)
        return self.wait()

    @contextlib.contextmanager
    def ended_on_failure(self):
        """For what follows the start and comes before its own block: where that fails, the process is ended."""
        try:
            yield
        except BaseException:
            self.end()
            raise

    def __enter__(self):
        return self

    def __exit__(self, *_):
        self.end()
