"""Archives of Debian's sources, for the other scripts here."""

import os
import shutil
import subprocess
import tarfile

KEYS = '/usr/share/keyrings/debian-archive-keyring.gpg'
UPDATE = ['-o', 'APT::Update::Error-Mode=any', 'update']
SOURCES = f'deb-src [signed-by={KEYS}] http://deb.debian.org/debian bookworm main\n'


class NotHad(Exception):
    """The reason why a source, or something made of it, isn't available."""


def own_apt(folder):
    """Returns the environment of an apt-get that has its state below a folder. This apt-get needs neither root nor
    `deb-src` lines of the system, and changes nothing in the system."""
    place = folder / 'apt'
    (place / 'lists').mkdir(parents=True, exist_ok=True)
    (place / 'sources.list').write_text(SOURCES)
    settings = {
        'APT::Sandbox::User': 'root', 'Dir::State': place, 'Dir::State::status': '/dev/null',
        'Dir::Cache': place, 'Dir::Etc::sourcelist': place / 'sources.list',
        'Dir::Etc::sourceparts': '/dev/null'}
    (place / 'apt.conf').write_text(''.join(f'{it} "{to}";\n' for it, to in settings.items()))
    return {**os.environ, 'APT_CONFIG': str(place / 'apt.conf')}


def get(folder, package):
    """Gets a package's source into a folder, by apt-get. apt-get checks Debian's signature."""
    if not shutil.which('apt-get'):
        raise NotHad('there is no apt-get')
    environment = own_apt(folder)
    for words in (UPDATE, ['source', '--tar-only', '--download-only', package]):
        ended = subprocess.run(
            ['apt-get', '-q', *words], cwd=folder, env=environment, capture_output=True, text=True)
        if ended.returncode:
            raise NotHad((ended.stderr.strip().split('\n'))[-1])


def archives(folder, package):
    """Returns the upstream archives of a package that a folder has."""
    return [it for it in folder.glob(f'{package}_*.orig.tar.*') if it.suffix != '.asc']


def unpacked(folder, package, place):
    """Unpacks the upstream source of a package. If the folder doesn't have the source, apt-get downloads it first. Returns
    the folder of the unpacked source, and its version."""
    if not archives(folder, package):
        get(folder, package)
    (path,) = archives(folder, package)
    with tarfile.open(path) as it:
        it.extractall(place / 'whole')
    found = [*(place / 'whole').iterdir()]
    # Most archives have one folder, with all files in it.
    source = found[0] if len(found) == 1 else place / 'whole'
    return source, path.name.split('_')[1].split('.orig')[0]
