"""A process for each visit, with limits of memory and time, so that a bad list ends its own visit alone.

Each is forked from a server that began before a key was read, so it has the key of its source alone. The server has the
modules and certificates that all need: to start Python for each of 200 sources would take longer than the visits."""
import contextlib
import json
import os
import pickle
import resource
import signal
import socket
import struct
from types import TracebackType
from typing import Any, Callable

from kbfeed_convert.ending import SIGNALS
from kbfeed_convert.faults import Refused

# The seconds after which a visit is ended that neither of its limits has ended.
PATIENCE = 60
PID = struct.Struct("i")
# The most bytes of what a visit reports. A list has some ten warnings.
REPLY = 1 << 24
# The bytes of memory beside its limit in which a process reports that it reached the limit.
REPORT = 1 << 24
# A process does its task by this function, which begins the conversion by the limits, and returns what it found.
Work = Callable[[Any, "Limits"], dict[str, Any]]


class Limits:
    """The limits of a conversion, with the checks behind it, and the seconds of the download before it."""

    def __init__(self, size: int, seconds: int, download: int):
        self.size, self.seconds, self.download = size, seconds, download

    def set(self) -> None:
        """Limits this process and those that it starts."""
        resource.setrlimit(resource.RLIMIT_CORE, (0, 0))
        resource.setrlimit(resource.RLIMIT_DATA, (self.size, self.size + REPORT))
        # At the lower one the system sends SIGXCPU, and at the higher one SIGKILL, which says nothing of time.
        resource.setrlimit(resource.RLIMIT_CPU, (self.seconds, self.seconds + 1))

    def relax(self) -> None:
        """Gives this process some memory more, to report that it had none."""
        resource.setrlimit(resource.RLIMIT_DATA, (self.size + REPORT, self.size + REPORT))

    def begin_conversion(self) -> None:
        """Has the system end this process when the time of its conversion is over."""
        signal.signal(signal.SIGALRM, signal.SIG_DFL)
        signal.setitimer(signal.ITIMER_REAL, self.seconds)

    def ended(self, status: int) -> str:
        """Returns why a process ended that reported nothing, by its status."""
        number = os.WTERMSIG(status) if os.WIFSIGNALED(status) else 0
        if number in (signal.SIGALRM, signal.SIGXCPU):
            return f"the conversion took longer than {self.seconds} s (max_convert_seconds)"
        if number == signal.SIGKILL:
            return "its process was killed: it did not end by its limits, or the machine had no memory"
        return f"its process ended with {f'signal {number}' if number else f'status {os.WEXITSTATUS(status)}'}"


class Processes:
    """The server that forks a process for each visit."""

    def __init__(self, prepare: Callable[[], None], work: Work):
        """Starts the server, which calls `prepare` once. `work` is what each process does."""
        self.control, theirs = socket.socketpair()
        self.pid = os.fork()
        if not self.pid:
            self.control.close()
            as_child(lambda: serve(theirs, prepare, work))
        theirs.close()

    def __enter__(self) -> "Processes":
        return self

    def __exit__(self, kind: type[BaseException] | None, error: BaseException | None,
                 trace: TracebackType | None) -> None:
        """Ends the server."""
        self.control.close()
        os.waitpid(self.pid, 0)

    def run(self, task: Any, limits: Limits) -> dict[str, Any]:
        """Does a task in a process of its own, and returns its report. Raises `Refused` if it ended without one."""
        ours, theirs = socket.socketpair()
        with ours:
            with theirs:
                socket.send_fds(self.control, [b"\0"], [theirs.fileno()])
            pid, = PID.unpack(received(self.control, PID.size))
            ours.settimeout(limits.download + limits.seconds + PATIENCE)
            try:
                ours.sendall(pickle.dumps((task, limits)))
                ours.shutdown(socket.SHUT_WR)
                reply = received(ours, REPLY)
            except TimeoutError:
                reply = b""
                kill(pid)
            except OSError:
                # It ended before it had read its task.
                reply = b""
            except BaseException:
                # A signal ends this program.
                kill(pid)
                raise
            status, = PID.unpack(received(self.control, PID.size))
        if not reply or len(reply) == REPLY:
            raise Refused(limits.ended(status))
        found: dict[str, Any] = json.loads(reply)
        return found


def kill(group: int) -> None:
    """Ends a process and those that it started."""
    with contextlib.suppress(OSError):
        os.killpg(group, signal.SIGKILL)


def received(channel: socket.socket, most: int) -> bytes:
    """Returns what arrives until the other side is closed, or so many bytes."""
    parts = []
    while most and (part := channel.recv(min(most, 1 << 16))):
        parts.append(part)
        most -= len(part)
    return b"".join(parts)


def as_child(run: Callable[[], None]) -> None:
    """Runs a function in a process that was forked, and ends it: nothing of its parent's is done a second time."""
    status = 1
    try:
        run()
        status = 0
    finally:
        os._exit(status)


def serve(control: socket.socket, prepare: Callable[[], None], work: Work) -> None:
    """Forks a process for each socket that arrives, and reports its number and its status."""
    for it in SIGNALS:
        # A signal from a terminal is for all. The parent ends this process by closing its socket.
        signal.signal(it, signal.SIG_IGN)
    prepare()
    while True:
        data, numbers, _, _ = socket.recv_fds(control, 1, 1)
        if not data:
            return
        with socket.socket(fileno=numbers[0]) as channel:
            pid = os.fork()
            if not pid:
                control.close()
                as_child(lambda: work_at(channel, work))
        with contextlib.suppress(OSError):
            os.setpgid(pid, pid)
        control.sendall(PID.pack(pid))
        # Until it is waited for, no other process gets its number.
        os.waitid(os.P_PID, pid, os.WEXITED | os.WNOWAIT)
        kill(pid)
        control.sendall(PID.pack(os.waitpid(pid, 0)[1]))


def work_at(channel: socket.socket, work: Work) -> None:
    """Does the task that arrives within its limits, and reports what was found."""
    for it in SIGNALS:
        signal.signal(it, signal.SIG_DFL)
    with contextlib.suppress(OSError):
        os.setpgid(0, 0)
    task, limits = pickle.loads(received(channel, REPLY))
    limits.set()
    channel.sendall(json.dumps(work(task, limits)).encode())
