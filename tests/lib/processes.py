"""Our processes: finds and ends everything that was started below a process, even if it has left its group."""
import ctypes
import os
import signal
import time

PDEATHSIG, SUBREAPER = 1, 36


def adopt():
    """From now on, processes that our children leave behind become our children, so they can be found."""
    ctypes.CDLL(None).prctl(SUBREAPER, 1, 0, 0, 0)


def end_with_parent():
    """From now on, this process gets SIGTERM if its parent ends."""
    ctypes.CDLL(None).prctl(PDEATHSIG, signal.SIGTERM, 0, 0, 0)


def below(top):
    """Process numbers below `top`, with their command lines. Processes that have ended are left out."""
    parents = {}
    for entry in os.listdir('/proc'):
        if entry.isdigit():
            try:
                with open(f'/proc/{entry}/stat', 'rb') as file:
                    state, parent = file.read().rpartition(b')')[2].split()[:2]
            except OSError:
                continue
            if state not in (b'Z', b'X'):
                parents[int(entry)] = int(parent)
    found, wave = {}, {top}
    while wave:
        wave = {pid for pid, parent in parents.items() if parent in wave}
        for pid in wave:
            try:
                with open(f'/proc/{pid}/cmdline', 'rb') as file:
                    found[pid] = file.read().replace(b'\0', b' ').decode(errors='replace').strip()
            except OSError:
                pass
    return found


def send(pids, number):
    for pid in pids:
        try:
            os.kill(pid, number)
        except OSError:
            pass


def reap():
    """Takes the status of every child that has ended."""
    try:
        while os.waitpid(-1, os.WNOHANG)[0]:
            pass
    except ChildProcessError:
        pass


def end_below(top, patience=5.0):
    """Ends every process below `top`: asks first, then forces. Returns the command lines that it found."""
    first = below(top)
    send(first, signal.SIGTERM)
    until = time.monotonic() + patience
    while (left := below(top)) and time.monotonic() < until:
        reap()
        time.sleep(0.05)
    while left:
        send(left, signal.SIGKILL)
        reap()
        time.sleep(0.05)
        left = below(top)
    return list(first.values())
