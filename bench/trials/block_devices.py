"""Block devices for the other scripts here, in addition to the loop devices and partitions of `media.py`. Each device is
removed when its `with` block ends, even if it ends with an error. A function raises NotHere if the machine has no such
device."""

import contextlib
import itertools
import os
import subprocess
import time
from pathlib import Path

from checks import has
from media import SECTOR, NotHere, partition, system

CONTROL = Path('/sys/class/zram-control')
TRIES = 100
NUMBERS = itertools.count()


def insist(act):
    """Calls `act` again until it succeeds: a process that is still closing the device may delay it."""
    for left in range(TRIES, -1, -1):
        try:
            return act()
        except (NotHere, OSError):
            if not left:
                raise
            time.sleep(0.05)


@contextlib.contextmanager
def zram(sectors):
    """Makes a disk in compressed memory."""
    try:
        number = int((CONTROL / 'hot_add').read_text())
    except OSError as why:
        raise NotHere(f'there is no zram ({why.strerror})') from why
    device = Path(f'/dev/zram{number}')
    try:
        set_length(device, sectors)
        yield device
    finally:
        insist(lambda: (CONTROL / 'hot_remove').write_text(str(number)))


def set_length(device, sectors):
    """Sets the length of a zram device that has none. It then holds zeros."""
    Path(f'/sys/block/{device.name}/disksize').write_text(str(SECTOR * sectors))
    insist(lambda: os.close(os.open(device, os.O_RDWR)))


def reset(device, sectors):
    """Empties a zram device. It then holds zeros."""
    insist(lambda: Path(f'/sys/block/{device.name}/reset').write_text('1'))
    set_length(device, sectors)


@contextlib.contextmanager
def part(device, start, sectors):
    """Makes partition 1 of a device. `move` changes its place."""
    path = partition(device, 1, start, sectors)
    try:
        yield path
    finally:
        insist(lambda: system('delpart', device, 1))


def move(device, start, sectors):
    """Makes partition 1 again at another place, with the same device number. The kernel frees the number a moment after it
    removes the partition."""
    number = os.stat(f'{device}p1').st_rdev
    for _ in range(TRIES):
        insist(lambda: system('delpart', device, 1))
        time.sleep(0.05)
        if os.stat(partition(device, 1, start, sectors)).st_rdev == number:
            return
    raise NotHere('partitions always get other numbers')


def linear(sectors, device, start=0):
    """Returns a row of a table of device mapper: its length, and the device and place to which it maps."""
    return sectors, f'linear {device} {start}'


def table(rows):
    """Returns the text of a table with these rows, one after the other."""
    lines, at = [], 0
    for sectors, target in rows:
        if sectors:
            lines.append(f'{at} {sectors} {target}\n')
        at += sectors
    return ''.join(lines)


def with_errors(sectors, device, places, count):
    """Returns rows that map a device, except that `count` sectors from each of the places on can't be read or
    written."""
    rows, end = [], 0
    for at in sorted(places):
        rows += [linear(at - end, device, end), (count, 'error')]
        end = at + count
    return [*rows, linear(sectors - end, device, end)]


def mapper_is_there():
    """Raises NotHere if the kernel has no device mapper."""
    if has('modprobe'):
        subprocess.run(['modprobe', '-q', 'dm-mod'])
    if 'device-mapper' not in Path('/proc/devices').read_text():
        raise NotHere('there is no device mapper')


@contextlib.contextmanager
def mapped(rows):
    """Makes a device of device mapper. Yields the node that the kernel has made for it."""
    mapper_is_there()
    name = f'rlibreg-{os.getpid()}-{next(NUMBERS)}'
    system('dmsetup', 'create', '--noudevsync', name, input=table(rows).encode())
    try:
        yield Path('/dev/dm-' + system('dmsetup', 'info', '-c', '--noheadings', '-o', 'minor', name))
    finally:
        insist(lambda: system('dmsetup', 'remove', '--noudevsync', name))


def load(device, rows):
    """Gives a device of device mapper another table, by suspend, load and resume."""
    number = os.stat(device).st_rdev
    it = ['-j', os.major(number), '-m', os.minor(number)]
    system('dmsetup', 'suspend', '--noudevsync', '--nolockfs', *it)
    try:
        system('dmsetup', 'load', *it, input=table(rows).encode())
    finally:
        system('dmsetup', 'resume', '--noudevsync', *it)


def forget(device):
    """Makes the system write its cached pages of a device, and drop them."""
    system('blockdev', '--flushbufs', device)


def forget_file(path):
    """Makes the system drop its cached pages of a file that no process maps."""
    number = os.open(path, os.O_RDONLY)
    try:
        os.fsync(number)
        os.posix_fadvise(number, 0, 0, os.POSIX_FADV_DONTNEED)
    finally:
        os.close(number)


def forget_all():
    """Makes the system write all dirty pages, and drop all pages that it can read again."""
    os.sync()
    Path('/proc/sys/vm/drop_caches').write_text('3')


def write(path, content, at=0):
    """Writes to a file or device through the page cache, and syncs it."""
    number = os.open(path, os.O_WRONLY)
    try:
        assert os.pwrite(number, content, at) == len(content)
        os.fsync(number)
    finally:
        os.close(number)


def read(path, length, at=0):
    """Reads from a file or device through the page cache."""
    number = os.open(path, os.O_RDONLY)
    try:
        return os.pread(number, length, at)
    finally:
        os.close(number)
