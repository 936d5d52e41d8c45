"""Things that run or exist beside a timed start: a folder for kept images, and a process that writes to the file system."""

import contextlib
import os
import shutil
import signal
import subprocess
import tempfile
import time
from pathlib import Path

WRITING = 'while :; do dd if=/dev/zero of="$0" bs=1M count=8 conv=fsync 2> /dev/null; done'


@contextlib.contextmanager
def kept_folder(place='/dev/shm'):
    """Makes a folder for images, in `place` or in memory. Waits before the `with` block begins, so that no
    existing file counts as just changed."""
    with tempfile.TemporaryDirectory(dir=place) as name:
        time.sleep(2.5)
        yield Path(name)


def empty(folder):
    for it in folder.iterdir():
        it.unlink()


@contextlib.contextmanager
def writer(folder):
    """Runs a process that keeps writing and syncing a file of a folder."""
    it = subprocess.Popen([shutil.which('sh'), '-c', WRITING, str(folder / 'written')], start_new_session=True)
    try:
        yield
    finally:
        os.killpg(it.pid, signal.SIGKILL)
        it.wait()
