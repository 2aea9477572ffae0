"""Finds and ends the processes that ./demo and ./test started, also those whose parent has ended (Linux only)."""
import contextlib
import ctypes
import errno
import os
import select
import signal
import sys
import threading
import time

PR_SET_PDEATHSIG, PR_SET_CHILD_SUBREAPER = 1, 36
# Errors of the machine, and not of the program: for these the user gets one line.
OF_MACHINE = (errno.ENOSPC, errno.EDQUOT, errno.EROFS, errno.EACCES, errno.EPERM, errno.EMFILE, errno.ENFILE)


class Interrupted(BaseException):
    """SIGINT, SIGTERM or SIGHUP came. `status` is the exit status for it."""

    def __init__(self, number):
        super().__init__(number)
        self.status = 128 + number


def raise_at_signals():
    """Makes the first SIGINT, SIGTERM or SIGHUP raise Interrupted in the main thread. Later ones are ignored."""
    def stop(number, _):
        ignore_signals()
        raise Interrupted(number)

    for it in (signal.SIGINT, signal.SIGTERM, signal.SIGHUP):
        # After `nohup` a closed terminal has to end nothing.
        if it != signal.SIGHUP or signal.getsignal(it) != signal.SIG_IGN:
            signal.signal(it, stop)


def ignore_signals():
    """Makes sure that no signal breaks off a cleanup."""
    for it in (signal.SIGINT, signal.SIGTERM, signal.SIGHUP):
        signal.signal(it, signal.SIG_IGN)


def adopt_orphans():
    """Makes this process the parent of each process below it whose own parent ends."""
    ctypes.CDLL(None, use_errno=True).prctl(PR_SET_CHILD_SUBREAPER, 1, 0, 0, 0)


def end_with_reader():
    """Raises SIGHUP in this process when nobody can read its standard output any more, as after `| head`."""
    def wait(poll):
        # A poll reports an error, as of a pipe that nobody reads, without being asked for it.
        if any(event & (select.POLLERR | select.POLLHUP) for _, event in poll.poll()):
            os.kill(os.getpid(), signal.SIGHUP)

    poll = select.poll()
    if sys.stdout:
        poll.register(sys.stdout, 0)
        threading.Thread(target=wait, args=(poll,), daemon=True).start()


def discard_output():
    """Makes sure that what standard output still holds is lost without a message."""
    with contextlib.suppress(OSError, AttributeError, ValueError):
        os.dup2(os.open(os.devnull, os.O_WRONLY), sys.stdout.fileno())


def call(name, act, clean):
    """Calls `act`, then `clean`, also after a signal or when nobody reads the output. Returns the exit status."""
    adopt_orphans()
    try:
        try:
            raise_at_signals()
            end_with_reader()
            return act()
        finally:
            ignore_signals()
            clean()
    except (Interrupted, BrokenPipeError) as why:
        # A signal during the first cleanup breaks it off.
        clean()
        discard_output()
        print(f"{name}: interrupted; nothing was left running", file=sys.stderr)
        return getattr(why, "status", 128 + signal.SIGHUP)
    except OSError as why:
        if why.errno not in OF_MACHINE:
            raise
        discard_output()
        print(f"{name}: {f'{why.filename}: ' if why.filename else ''}{why.strerror}", file=sys.stderr)
        return 1


def end_with_parent():
    """Makes the end of the parent end this process, and the processes below it, also if the parent is killed."""
    def stop(*_):
        ignore_signals()
        end_descendants()
        os._exit(128 + signal.SIGTERM)

    signal.signal(signal.SIGTERM, stop)
    ctypes.CDLL(None, use_errno=True).prctl(PR_SET_PDEATHSIG, signal.SIGTERM, 0, 0, 0)


def parents():
    """Returns the parent and the state of each process."""
    found = {}
    for name in os.listdir("/proc"):
        if name.isdecimal():
            with contextlib.suppress(OSError), open(f"/proc/{name}/stat", encoding="utf-8", errors="replace") as it:
                # The program's name is in parentheses and may have any bytes.
                state, parent = it.read().rpartition(")")[2].split()[:2]
                found[int(name)] = (int(parent), state)
    return found


def descendants(of=None):
    """Returns the ids of the processes below this one, or below another, without those that have ended."""
    found, all_of_them = [of or os.getpid()], parents()
    for parent in found:
        found += [it for it, (above, _) in all_of_them.items() if above == parent and it not in found]
    return [it for it in found[1:] if all_of_them[it][1] not in "ZX"]


def command(process):
    """Returns the command line of a process, or its id if it has ended."""
    with contextlib.suppress(OSError), open(f"/proc/{process}/cmdline", encoding="utf-8", errors="replace") as it:
        return it.read().replace("\0", " ").strip() or str(process)
    return str(process)


def kill(processes, number=signal.SIGKILL):
    """Sends a signal to each of the processes."""
    for it in processes:
        with contextlib.suppress(ProcessLookupError, PermissionError):
            os.kill(it, number)


def end_children(besides):
    """Kills the children of this process, and those below them, but for the named ones. These are adopted orphans."""
    for it, (parent, _) in parents().items():
        if parent == os.getpid() and it not in besides:
            end_descendants(it)
            kill([it])
            with contextlib.suppress(ChildProcessError):
                os.waitpid(it, 0)


def end_descendants(of=None, seconds=30):
    """Kills each process below this one, or below another, until none is left."""
    until = time.monotonic() + seconds
    while (left := descendants(of)) and time.monotonic() < until:
        kill(left)
        time.sleep(0.01)
    if of is None:
        # The adopted ones are reaped here.
        with contextlib.suppress(ChildProcessError):
            while os.waitpid(-1, os.WNOHANG)[0]:
                pass
