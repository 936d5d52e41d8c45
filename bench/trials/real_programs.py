#!/usr/bin/env python3
"""Runs real programs of Debian's sources from a registry: some that are built by hand, and projects that are built by their
own commands.

    python3 bench/trials/real_programs.py PROGRAMS FOLDER [--sources SOURCES] [--only NAME..]

PROGRAMS has rlibreg, rlibreg-run, rlibreg-tool and rlibreg-gcc (c/build.sh). Each program has musl inside, and its own code
in libraries of a registry, as docs/LINKING.md says. Its output, its status and the files that it leaves are compared with
those of the same sources linked statically, or with those of the system's build if the program opens modules. The program
is started from kept images too, and so is the executable file of its image. If the script runs as root, a user without
privileges repeats all of it. In the end the libraries of all programs are put into one registry, and each program is
started from it again. SOURCES keeps the archives; `apt-get source` gets those that aren't there. If this machine lacks
something, the part that needs it is left out, and a line reports this.
"""

import argparse
import collections
import os
import re
import subprocess
import sys
from pathlib import Path

sys.path[1:1] = map(str, Path(__file__).resolve().parents[1].glob('*/'))  # the folders of bench
import real_builds
import unchanged
import unchanged_more
import unchanged_plus
from checks import NOBODY, Checks, emptied, has
from debian_sources import NotHad
from disks import install
from real_trials import TRIALS as USUAL

LEAST, BASE = 16384, '0x10000000'
ENVIRONMENT = {'PATH': '/usr/bin:/bin', 'HOME': '/', 'LC_ALL': 'C', 'TZ': 'UTC'}
WAIT = 300


Ended = collections.namedtuple('Ended', 'status output errors')
# How a program is started: its file, and the words that come before the file. KEPT among them stands for the user's folder
# of kept images.
Variant = collections.namedtuple('Variant', 'name file before')
# A user: the words that come before each command of this user, and the user's folder of kept images.
User = collections.namedtuple('User', 'name before kept')
# A trial that was run: its program's file for a registry, and the results of the first variant.
Tried = collections.namedtuple('Tried', 'trial file wanted')

KEPT, NUMBER = object(), 65534
# The programs that are built by hand, and the projects that are built by their own commands.
BY_HAND = {'Lua': real_builds.lua, 'SQLite': real_builds.sqlite}
PROJECTS = {**unchanged.PROJECTS, **unchanged_more.PROJECTS, **unchanged_plus.PROJECTS}
TRIALS = {**USUAL, **unchanged_more.TRIALS, **unchanged_plus.TRIALS}


def done(*words):
    ended = subprocess.run([*map(str, words)], capture_output=True)
    assert ended.returncode == 0, (words, ended)
    return ended.stdout


class Bench:
    def __init__(self, programs, folder, checks):
        self.programs, self.folder, self.checks = programs, folder, checks
        self.place, self.tried, self.libraries = folder / 'place', [], []
        usage = subprocess.run([programs / 'rlibreg-tool'], capture_output=True, text=True).stderr
        self.has_executables = 'executable' in usage
        if not self.has_executables:
            checks.skip('executables', 'rlibreg-tool has no form `executable`')

    def registry(self, build):
        """Makes a disk with the libraries of a program."""
        return self.disk(build.folder / 'disk', build.libraries)

    def disk(self, disk, libraries):
        """Makes a disk with libraries, which also has room for their next versions."""
        sectors = sum(it.stat().st_size for it in libraries) // 256 + LEAST
        done(self.programs / 'rlibreg', 'format', disk, sectors)
        install(self.programs / 'rlibreg', disk, (it.read_bytes() for it in libraries))
        disk.chmod(0o644)
        return disk

    def variants(self, build, disk, program):
        linked, static = (it / program for it in (build.linked, build.static))
        yield Variant('static', static.read_bytes(), [])
        yield Variant('registry', linked.read_bytes(), [self.programs / 'rlibreg-run', disk])
        if self.has_executables:
            words = [self.programs / 'rlibreg-tool', 'executable', disk, linked, BASE]
            made = subprocess.run(words, capture_output=True)
            assert made.returncode == 0, (words, made)
            yield Variant('executable', made.stdout, [])

    def kept_variant(self, name, file, disk):
        return Variant(name, file, [self.programs / 'rlibreg-run', '-c', KEPT, disk])

    def start(self, trial, step, before):
        words = [*map(str, before), f'./{trial.program}', *step.words]
        it = subprocess.run(words, cwd=self.place, env=ENVIRONMENT, input=step.given,
                            capture_output=True, timeout=WAIT)
        output = re.sub(trial.times, b'(a time)', it.stdout) if trial.times else it.stdout
        return Ended(it.returncode, output, it.stderr)

    def results(self, trial, file, before):
        """Returns the status and output of each start, and the files that are left."""
        emptied(self.place).chmod(0o777)
        for name, data in {**trial.files, trial.program: file}.items():
            path = self.place / name
            path.parent.mkdir(parents=True, exist_ok=True)
            path.parent.chmod(0o777)
            path.write_bytes(data)
            path.chmod(0o777)
        ended = [self.start(trial, step, before) for step in trial.steps]
        (self.place / trial.program).unlink()
        left = [it for it in self.place.rglob('*') if it.is_file()]
        return ended, {str(it.relative_to(self.place)): it.read_bytes() for it in left}

    def compare(self, trial, variants, user, wanted=None):
        """Compares a program in all of its variants; the first is the static one, if no results are wanted. Returns the
        first results."""
        for variant in variants:
            before = [user.kept if it is KEPT else it for it in variant.before]
            ended, left = self.results(trial, variant.file, [*user.before, *before])
            kind = f'{trial.program}, {variant.name}, {user.name}'
            is_right = trial.is_right(ended, left, self.place)
            self.checks.want(kind, is_right, 'not what it has to be:', ended[0])
            wanted = wanted or (ended, left)
            for step, was, now in zip(trial.steps, wanted[0], ended):
                self.checks.want(kind, now.status == step.status, step.words, now)
                self.checks.want(kind, was == now, step.words, was, now)
            self.checks.want(kind, wanted[1] == left, 'files:', sorted(wanted[1]), sorted(left))
        return wanted

    def compare_together(self, user):
        """Starts all programs again, from one registry with the libraries of all."""
        disk = self.disk(self.folder / 'together', self.libraries)
        for it in self.tried:
            self.compare(it.trial, [self.kept_variant('one registry', it.file, disk)], user, it.wanted)

    def kept(self, name, user=None):
        """Makes a user's folder of kept images."""
        folder = emptied(self.folder / name)
        folder.chmod(0o700)
        if user is not None:
            os.chown(folder, user, user)
        return folder

    def users(self):
        """Yields the users who start the programs."""
        yield User('who asked', [], self.kept('kept'))
        paths = [self.programs / 'rlibreg-run', self.folder]
        if not has('setpriv') or subprocess.run([*NOBODY, 'true'], capture_output=True).returncode:
            self.checks.skip('nobody', 'this user may not be another, or there is no setpriv')
        elif any(subprocess.run([*NOBODY, 'test', '-x', path]).returncode for path in paths):
            self.checks.skip('nobody', 'another user may not go to PROGRAMS or to FOLDER')
        else:
            yield User('nobody', NOBODY, self.kept('kept-nobody', NUMBER))


def builds(bench, sources, names):
    """Yields each program that can be built here, by its name."""
    built = {}
    for name in names:
        place = bench.folder / name.replace(', ', '-')
        try:
            if name in BY_HAND:
                built[name] = BY_HAND[name](place, sources)
            else:
                built[name] = unchanged.build(name, PROJECTS[name], place, sources, built)
        except NotHad as why:
            bench.checks.skip(name, why)
            continue
        except real_builds.NotBuilt as why:
            bench.checks.want(name, False, why)
            continue
        print(f'{name}: {", ".join(built[name].versions)}', flush=True)
        yield name, built[name]


def try_all(bench, sources, names):
    users = list(bench.users())
    for name, build in builds(bench, sources, names):
        disk = bench.registry(build)
        bench.libraries += [it for it in build.libraries if it not in bench.libraries]
        for trial in TRIALS[name](build):
            file = (build.linked / trial.program).read_bytes()
            variants = [*bench.variants(build, disk, trial.program), bench.kept_variant('kept image', file, disk)]
            wanted = [bench.compare(trial, variants, user) for user in users]
            bench.tried.append(Tried(trial, file, wanted[0]))
    bench.compare_together(users[0])
    for user in users:
        bench.checks.want('kept images', any(user.kept.iterdir()), 'none is kept for', user.name)


def asked_for():
    """Returns the arguments of the command line, and empties FOLDER."""
    asked = argparse.ArgumentParser()
    asked.add_argument('programs', type=Path)
    asked.add_argument('folder', type=Path)
    asked.add_argument('--sources', type=Path)
    asked.add_argument('--only', nargs='+', choices=TRIALS, default=[*BY_HAND, *PROJECTS])
    given = asked.parse_args()
    folder = emptied(given.folder.resolve())
    folder.chmod(0o755)
    sources = (given.sources or folder / 'sources').resolve()
    sources.mkdir(parents=True, exist_ok=True)
    programs = given.programs.resolve()
    os.environ['PATH'] = f'{programs}:{os.environ["PATH"]}'
    return Bench(programs, folder, Checks()), sources, given.only


def main():
    bench, sources, names = asked_for()
    try_all(bench, sources, names)
    sys.exit(bench.checks.end('real_programs'))


if __name__ == '__main__':
    main()
