"""What a build takes of the system for a while: a lock, a folder, and commands that end when the build ends."""

import contextlib
import ctypes
import fcntl
import os
import shutil
import signal
import subprocess
import tempfile
import time

# A folder's name goes on with the number of the process that made it.
PREFIX = "defmtl-build-"


@contextlib.contextmanager
def turn(file, wait):
    """Calls wait where another process holds the lock of this name, and waits until that ends."""
    with open(file, "w", encoding="utf-8") as held:
        try:
            fcntl.flock(held, fcntl.LOCK_EX | fcntl.LOCK_NB)
        except BlockingIOError:
            wait()
            fcntl.flock(held, fcntl.LOCK_EX)
        yield


@contextlib.contextmanager
def room(at):
    """Makes a folder, and removes those of builds that were killed."""
    for it in os.listdir(at):
        if it.startswith(PREFIX) and not os.path.exists(f"/proc/{it.split('-')[2]}"):
            shutil.rmtree(f"{at}/{it}", ignore_errors=True)
    made = tempfile.mkdtemp(prefix=f"{PREFIX}{os.getpid()}-", dir=at)
    # (`rt ci` runs the program as nobody where root calls it)
    os.chmod(made, 0o711)
    try:
        yield made
    finally:
        # (what was killed may write for a moment yet)
        for _ in range(100):
            shutil.rmtree(made, ignore_errors=True)
            if not os.path.exists(made):
                break
            time.sleep(0.05)


def run(words, folder, at, goes_on=lambda line: True):
    """Runs a command that ends when this one does, however that does, and answers whether all is well. What it says goes to the file log of the folder at."""
    ends_with_this = lambda: ctypes.CDLL(None).prctl(1, signal.SIGTERM)
    how = {"env": {**os.environ, "TMPDIR": at}, "preexec_fn": ends_with_this, "start_new_session": True, "text": True, "errors": "replace"}
    with open(f"{at}/log", "w", encoding="utf-8", buffering=1) as said:
        started = subprocess.Popen(words, cwd=folder, stdin=subprocess.DEVNULL, stdout=subprocess.PIPE, stderr=subprocess.STDOUT, **how)
        try:
            for line in started.stdout:
                said.write(line)
                if not goes_on(line):
                    return False
            return not started.wait()
        finally:
            started.terminate()
            with contextlib.suppress(subprocess.TimeoutExpired):
                started.wait(5)
            started.kill()
            started.wait()
