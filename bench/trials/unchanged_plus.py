"""Projects of C++ of Debian's sources without changes, each built by its own commands: with rlibreg-g++, and once more by the
system's g++. docs/LINKING.md has a table of them."""

from real_trials import Step, Trial, below
from unchanged import CMAKE, STATIC, Project

PROJECTS = {
    'tinyxml2': Project(
        'tinyxml2', CMAKE, '-DBUILD_SHARED_LIBS=ON -Dtinyxml2_BUILD_TESTING=ON',
        f'-Dtinyxml2_BUILD_TESTING=ON {STATIC}', ['libtinyxml2.so'], {'xmltest': ('xmltest',) * 2}, ['cmake'],
        reference=('gcc', 'g++'), is_plus=True)}


def xml_trials(it):
    files = below(it.place['static'], 'resources/**/*') | {'resources/out/readme.txt': b''}
    yield Trial('xmltest', files, [Step([])], lambda ended, *_: b'Fail 0' in ended[0].output,
                rb'[0-9.]+ milli-seconds')


TRIALS = {'tinyxml2': xml_trials}
