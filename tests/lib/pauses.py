"""Stops a program while it waits, and lets it go on."""
import os
import pathlib
import signal
import time

from tests.lib import programs


def state(process):
    """Returns the state of a process as Linux has it: `R` runs, `S` sleeps, `T` is stopped, `Z` has ended."""
    return pathlib.Path(f"/proc/{process.pid}/stat").read_text().rpartition(") ")[2][0]


def wait_for(process, wanted):
    """Waits until a process is in a state."""
    last = time.monotonic() + programs.PATIENCE
    while (now := state(process)) != wanted:
        if time.monotonic() > last or now == "Z":
            raise AssertionError(f"process {process.args[0]}: its state is {now}, not {wanted}")
        time.sleep(0.01)


def wait_for_bytes(fake, wanted):
    """Waits until the bytes that a fake server has read of its only client have these among them."""
    last = time.monotonic() + programs.PATIENCE
    while not (fake.asked and wanted in fake.asked[0]):
        if time.monotonic() > last:
            raise AssertionError(f"the server has read {fake.asked}")
        time.sleep(0.01)


def stop_and_continue(process):
    """Stops a process that waits for its peer. On Linux this interrupts the call of the socket in which it waits."""
    wait_for(process, "S")
    os.kill(process.pid, signal.SIGSTOP)
    wait_for(process, "T")
    os.kill(process.pid, signal.SIGCONT)
