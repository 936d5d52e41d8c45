"""The definitions of `specs/`, as docs/PROOFS.md and docs/DEFINITIONS.md have them, each described by the comment before it.

READING has the main ones, in the order in which they should be read. The others are listed by crate: first those that the
CLAUSES of the tables of docs/PROOFS.md cite, directly or through others, and then those that only contracts of single
crates cite. The script finds the former by following the names in the clauses and in the definitions, down to the
toolchain's own. PLAIN has a plain sentence in place of a comment that can't be understood without its context. The script
ends with what is wrong if a clause or a definition of READING or PLAIN no longer exists, if no clause uses a definition of
READING, or if CRATES doesn't name each crate that has definitions once.

The first definition of a file may have the file's own comment. Constants share the comment of the first of them; any other
definition without a comment is reported.
"""

import re
import sys
from pathlib import Path

ROOT = Path(__file__).resolve().parents[2]
HEADINGS = ('Cited by the clauses of [PROOFS](PROOFS.md):', 'By contracts of single crates:')
CLAUSES = [
    ('sector_disk/disk', 'read write sync', 'calls honest'),
    ('sector_disk/disk', 'sync', 'holds_now whole_sectors'),
    ('file_disk/sector_file', 'count_sectors read_at write_at sync', 'honest'),
    ('file_disk/disk', 'read write sync', 'honest any_moment cause'),
    ('file_disk/disk', 'follows_its_file holds_of_its_medium', 'result'),
    ('file_disk/open', 'over', 'file starts reopen cause'),
    ('registry/format', 'format', 'making'),
    ('registry/open', 'open', 'opening'),
    ('registry/upgrade', 'upgrade', 'result'),
    ('registry/open', 'open_untested', 'opening registry'),
    ('registry/apply', 'apply', 'applied untested'),
    ('registry/apply', 'run', 'ok'),
    ('registry/update', 'commit', 'made'),
    ('registry/update', 'give_up', 'given_up'),
    ('registry/runs', 'runs_join', 'ran joined'),
    ('binders/run', 'run_events', 'ok'),
    ('commands/disk_script', 'run_script_on_disk', 'ok err'),
    ('commands/request', 'run_request', 'result'),
    ('commands/making', 'run_format run_upgrade', 'result'),
    ('commands/script_on_disk', 'run_disk_script', 'ends'),
    ('registry/rounds', 'run_rounds', 'ok'),
    ('updates/run', 'run_update', 'result'),
    ('rlibreg_c/bind', 'rlibreg_bind', 'image answered'),
    ('rlibreg_c/list', 'rlibreg_list', 'listing answered'),
    ('rlibreg_c/preload', 'rlibreg_plan_preload', 'plan answered left'),
    ('rlibreg_c/change', 'rlibreg_plan_install rlibreg_plan_replace rlibreg_plan_remove', 'planned'),
    ('rlibreg_c/format', 'rlibreg_plan_format', 'plan answered left'),
    ('rlibreg_c/upgrade', 'rlibreg_plan_upgrade', 'plan answered left'),
    ('rlibreg_c/update', 'rlibreg_plan_update', 'plan answered left'),
]
# The calls that the headline names, among others.
HEADLINE = [('registry/format', 'format'), ('registry/open', 'open'), ('registry/apply', 'apply'), ('registry/apply', 'run')]
READING = [
    ('1. Files', 'The bytes of a file: what they say, and when they are refused (gABI chapters 4 and 5).', [
        'elf_file/Address: bytes_at', 'elf_dynamic/Symbol: symbols', 'elf_dynamic/Relocation: relocations',
        'elf_dynamic/Strings: needed soname', 'elf_dynamic/Refusal: first_refusal']),
    ('2. Admission', 'Which symbols an object exports, and when its hash table can be trusted (gABI chapters 4 and 5).', [
        'hash_check/Export: is_exported', 'hash_check/Definition: definition_of',
        'hash_check/Admission: has_bad_hash_table', 'hash_check/FileRefusal: first_file_refusal']),
    ('3. Lookup', 'Which objects a program is bound with, and what each symbol is bound to (gABI chapter 5, ld.so(8)).', [
        'scope/Levels: next_level', 'scope/LoadOrder: load_order missing', 'scope/Lookup: lookup', 'scope/Target: target']),
    ('4. Images', 'The places of the objects, and the byte at each address (gABI chapter 5, psABI).', [
        'image/Placement: place', 'image/Relocating: value_of', 'image/Byte: byte_of', 'image/Image: image_of',
        'image/Refusal: bind_tests']),
    ('5. States and steps', 'The state that a registry holds, how a command may be answered, and which state this leaves (own).', [
        'requests/Library: IsLibrary', 'states/State: State', 'states/Cost: cost catalogues_for taken_by free',
        'requests/Tests: tests_of',
        'requests/Step: accepted IsReply LacksWrite LacksRead Step']),
    ('6. Sectors', 'Which lists of sectors hold a state (own; `docs/FORMATS.md` has the formats).', [
        'roots/Choice: IsCurrent', 'store/Stands: AreCatalogued AreListed HasRoom IsIntact state_of Stands StandsOld',
        'registry/Stands: Stands StandsOld']),
    ('7. Disks and mixtures', 'The calls of an honest disk: what each of them does, and what a stop may leave (own).', [
        'sector_disk/Disk: DiskFacts Mixture KeepsPast IsRead IsWrite IsSync LeavesOnly StartsWith']),
    ('8. Files of sectors', "The calls of an honest file: what each of them does, and what the file's medium may have (POSIX; what kernels do). Then a disk over such a file (own).", [
        'file_disk/SectorFile: FileFacts MediumAt IsFileCall IsFileRead IsFileWrite IsFileSync IsFoundWith',
        'file_disk/FileDisk: file_facts IsCovered IsMomentAt FollowsTheFile HoldsOfTheMedium IsOver IsAsTheFile StartsAsFound HasCause']),
    ('9. Crash safety', 'The state that a stop leaves at each moment of a command, an update, a run of these, a script, and rounds (own).', [
        'registry/Opened: IsAt', 'registry/Applied: MayLeaveBy AppliedBy', 'registry/Untested: UntestedStep',
        'registry/Acknowledged: Transaction Exchange acknowledged AreAccepted',
        'registry/Updating: updated', 'registry/Ran: UpdatesAt GivesUp Idles HasBegun HoldsAcknowledged LeavesAccepted FindsAccepted Ran',
        'commands/DiskScript: LinesRan', 'registry/Rounds: AlwaysStands RoundLeads']),
    ('10. Disks of version 1', 'How opening refuses such a disk, and what an upgrade makes of it (own).', [
        'store/Opening: RefusesOpen', 'store/Upgraded: upgraded', 'registry/Upgraded: IsUpgradeOf',
        'store/Step: refusal_of_upgrade IsUpgradeAnswer']),
]
PLAIN = {
    'file_disk/SectorFile: IsFileWrite': 'a write, complete, short or failed: unless a sync has failed, reads return the old or the new content of each sector that the call was given, and the new content of each sector that it transferred. No set grows except by the new content',
    'file_disk/FileDisk: file_facts': "a disk over a file: reads return a sector from the write buffer, or else from the file. A stop may leave in a sector anything that the write buffer or the medium has had there since the last sync",
    'file_disk/FileDisk: FollowsTheFile': "at each moment of the file, the medium has only what a stop of the disk might have left at the corresponding moment of the disk",
    'file_disk/FileDisk: HoldsOfTheMedium': 'if a property holds of all that a stop may leave, from one moment of the disk to a later one, it also holds of the medium between these moments',
    'file_disk/SectorFile: IsFileRead': 'A read changes nothing, and each sector that it transferred has the content that was written last. A read that transfers no sector has failed. After a failed sync, nothing is stated about what reads return',
    'file_disk/SectorFile: IsFileSync': "A sync: no set grows. If it succeeds, and no sync has failed before, the set of each sector contains only what a read of the sector returns. If it fails, nothing states that a later sync makes a set smaller",
    'registry/Upgraded: IsUpgradeOf': 'the registry is at the state that the sectors m held; or, if they held a state by the old rules, at the upgraded state',
    'requests/Tests: tests_of': "the tests of a command, which read no file except the command's own. A bind and a listing have no tests",
    'scope/LoadOrder: missing': "the first needed name that isn't installed. The objects are searched in load order, and the needed names of each object in the order of its entries",
    'image/Byte: byte_of': 'the byte at an address: the byte that the last relocation of this address writes, or else the byte of the file, or else 0 up to p_memsz, or else none',
    'roots/Choice: IsCurrent': 'which root is current in sectors 0 and 1: a single root of generation 0, or the later of two roots with neighbouring generations',
    'byte_disk/Plan: MayBeLeft': 'a stop after these steps may leave a sector with the content that it had when the last sync was done, or after some step since',
    'byte_registry/Asked: IsAsked': 'the bytes hold this state and no other, and the registry on them answered by the step table. If the answer is Done, the steps lead to the state after acceptance',
    'byte_registry/Asked: IsUnupgraded': 'why no registry is upgraded on these bytes: a test of an upgrade refuses, memory was refused, or a look at the bytes refuses',
    'byte_registry/Plans: LeadsFrom': 'each mixture after each prefix of the steps has the property before or the property after, and each mixture after all steps has the property after',
    'registry/Acknowledged: Exchange': 'one request and its answer: a command or an update with its answer, an update that was given up, or a step of a binder',
    'registry/Flying: Flies': 'the binder is on this flight: in the registry as it is now, it holds the libraries of the state at which it was begun',
    'registry/Flying: IsStep': 'how a step may be answered: Going, and the binder is one step further; the answer of the bind, after exactly as many steps as the bind takes; or S1 (Device), S2 (Reopen) or S11 (OutOfMemory)',
    # One plain sentence in place of a comment that needs its context, or that is longer than a row, here and in the
    # table.
    'elf_dynamic/Strings: soname': "the library's own name, DT_SONAME, if it has one",
    'elf_dynamic/Strings: needed': 'the names of the libraries that an object needs, DT_NEEDED, in their order',
    'elf_dynamic/Refusal: first_refusal': 'the first of the tests E1 to E27 and E30 to E32 that a file fails, or none',
    'hash_check/Export: is_exported': 'symbol number i is exported: i is not 0, the binding is GLOBAL or WEAK, the symbol is defined, its type is NOTYPE, OBJECT or FUNC, and its visibility is DEFAULT or PROTECTED',
    'hash_check/Admission: has_bad_hash_table': "E29 (BadHashTable): the hash table has no bucket, has a bad index, or has a walk that doesn't end or that misses an export",
    'hash_check/FileRefusal: first_file_refusal': 'the first test that a file fails: the tests of `first_refusal` come first, then E28 (DuplicateDefinition: two exports of one name), then E29',
    'hash_check/Hash: hash_step': 'the hash after one more byte of the name',
    'scope/Levels: next_level': 'the next level of a breadth-first order: the objects that the objects of a level need, and that no level has yet',
    'scope/LoadOrder: available': 'a program and the installed libraries in one list, in which each object has a number (own)',
    'scope/LoadOrder: load_order': 'the objects in load order: the program, the preloads, and then, level by level, the libraries that these need',
    'scope/Lookup: lookup': 'the first definition of a name in load order, weak or not. For the symbols of a symbolic object, this object is searched first',
    'scope/Lookup: scope_of': 'the objects that are searched for the symbols of an object: all objects, in load order. If the object is symbolic, it comes once more before all others',
    'scope/Target: target': "the target of a symbol of an object: the symbol's own definition, a definition that the lookup finds, 0, or none",
    'scope/Target: target_of': 'the target of a symbol that was read: the symbol itself, the definition that is found under its name, 0 if it is weak, or none',
    'image/Placement: place': 'the places of objects in memory, in load order: the first object is at the base, and each other object follows the one before it, at a multiple of its unit',
    'image/Refusal: bind_tests': 'the tests of a bind in their order: B1 (a file is refused), B2 (BadBase), B3 (Missing), B4 (NoRoom), B5 (Undefined)',
    'states/State: State': 'a registry: its generation, its libraries with their names and bytes, and the names of its preloads',
    'requests/Step: TakesMemory': 'whether a request needs memory: to admit a file that passes the tests before admission, or to return a listing',
    'requests/Step: IsReply': 'the answer to an accepted command: done, the listing, or the image with the defined byte at each address',
    'requests/Step: Step': 'the step table: how a command may be answered in a state, and which state and condition this leaves',
    'states/Geometry: IsGeometry': 'a disk of this number of sectors can hold a state, as a premise',
    'states/Cost: free': 'the number of free sectors of a disk in a state: all sectors except the roots and those that the state takes',
    'store/Stands: AreCatalogued': 'catalogues list the sectors of entries: each catalogue encodes 64 of them, except the last one, which encodes the rest',
    'store/Stands: AreListed': "the sectors of a root's entries: in version 1 the root lists them itself, in version 2 its catalogues do",
    'store/Stands: HasRoom': 'in version 2 there is room for the catalogues twice: for the current ones, and for those of the next change',
    'store/Stands: IsIntact': 'one root is current, its entries are listed and encoded, no sector is used twice, no name occurs twice, and there is room for the catalogues',
    'store/Stands: state_of': 'the state that a root and its entries describe',
    'store/Stands: Stands': 'some root of version 2 and its entries are intact in these sectors, and they describe this state',
    'registry/Stands: StandsOld': 'the sectors hold the state by the rules of version 1, and each of its files is a library',
    'sector_disk/Disk: DiskFacts': 'a disk: whether it is honest, its calls, what reads return, and what a stop at each moment may leave',
    'sector_disk/Disk: Mixture': 'what a stop now may leave: each sector, by itself, has one of the contents that it may have',
    'sector_disk/Disk: IsSync': 'a sync: reads return the same. If it succeeds, a stop leaves what reads return, and nothing else',
    'sector_disk/Disk: IsWrite': 'a write: if it succeeds, reads return the new content. A stop may leave the new content, or what it could leave before',
    'sector_disk/Disk: LeavesOnly': 'at every moment from one state of a disk to a later one, a stop leaves only sectors that have a given property',
    'registry/Applied: MayLeaveBy': 'the state before the command, the state after it, or the state after a change that a failed call cut off',
    'registry/Applied: AppliedBy': 'one command makes a step of the step table, during which a stop leaves only what `MayLeaveBy` says',
    'registry/Untested: UntestedStep': 'the step table for a registry in which some files may be no libraries: a bind that needs such a file is refused with S5 (Damaged), and everything else is the same',
    'registry/Ran: HasBegun': 'each of the first k exchanges has begun by this moment',
    'registry/Ran: LeavesAccepted': 'whatever a stop leaves at a moment holds the state after the accepted ones of the first k exchanges, for a k with `HasBegun` and `HoldsAcknowledged`',
    'registry/Ran: FindsAccepted': 'whatever a stop leaves at the end holds the state after all accepted commands and updates',
    'registry/Ran: Ran': 'a run: one exchange after the other, with what a stop leaves at each moment and at the end',
    'commands/DiskScript: LinesRan': "the commands of a script's lines are a run, in the sense of `Ran`",
    'registry/Rounds: RoundLeads': 'a round that ran leads to the state after its accepted commands; a round that did not run keeps the state',
    'store/Opened: IsAt': 'a store is at a state: its disk is honest, no write or sync has failed, and every mixture holds the state by these entries',
    'store/Opening: RefusesOpen': 'how `open` may refuse these sectors: with S12 (OldFormat) if the current root is of version 1 (S1 or S11 may come in its place)',
    'store/Step: refusal_of_upgrade': "why a state of version 1 isn't upgraded: S10 (GenerationEnd) if its generation is the last one, S7 (Full) if its catalogues have no room",
    'store/Step: IsUpgradeAnswer': 'the answers to an upgrade: exactly the refusal of `refusal_of_upgrade`, or none. S1 and S11 may come in place of each',
    'registry/Calls: calls_of': 'the number of calls that an accepted command makes: one for each sector of the file and each catalogue, and those for the entry, the root and two syncs; a bind makes one call for each sector that it reads',
}
CRATES = [
    ('names', 'Owned names'), ('elf_file', 'Files'), ('elf_dynamic', 'Symbols and relocations of files'),
    ('hash_check', 'Admission and the search for names'), ('scope', 'Load order and lookup'),
    ('text_output', 'Text on its way to a writer'), ('image', 'Images'), ('executable', 'Executable files'),
    ('bindings', 'What symbols are bound to'), ('requests', 'Requests and the step table'),
    ('sector_disk', 'The disk model'), ('file_disk', 'A disk over a file'), ('extents', 'Unused and claimed sectors'),
    ('states', 'States'), ('roots', 'Root, catalogue and entry sectors'), ('passes', 'Passes over a disk'), ('store', 'Named byte strings'),
    ('snapshots', 'Snapshots'), ('contents', 'What a disk has'), ('registry', 'The registry on a disk'),
    ('binders', 'Binders in slots'), ('byte_disk', 'A disk over given bytes'),
    ('byte_registry', 'A registry on given bytes'), ('c_answers', 'The answers to calls for C'), ('rlibreg_c', 'The calls for C'), ('commands', 'The program'),
    ('program_parts', 'Parts that the programs share'), ('scripts', 'The lines of scripts'), ('updates', 'Several changes, one commit'), ('tool_parts', 'Output and messages of forms'), ('tool_commands', 'The second program'),
    ('replays', 'The laws that a dump replays, and that an update binds ahead')]
HEAD = """# Definitions

This page is for everyone who reads a clause. It has all definitions except the main ones, which [PROOFS](PROOFS.md) has in the order in which they should be read. `bench/documents.py` makes this page from the comments in `specs/`.

Each file's name is followed by the section of the public standard that its definitions are taken from, or by "own" if the rule is this project's. If a definition has another section than its file, that section comes after the definition. The standards are gABI (System V ABI, the chapters on object files and on program loading and dynamic linking), psABI (its AMD64 supplement), elf(5) and ld.so(8).
"""
STANDARD = re.compile(r'\(([^()]*(?:\([^()]*\)[^()]*)*)\)')
VALUE = re.compile(r'^\S+ = (0x[0-9a-f]+|[0-9]+)$')
FIELD = re.compile(r'^[pe]_[a-z]+')
NAME = re.compile(r'^(?:(?:  )?(?:(?:abbrev|unfoldable) pub|pub (?:record|data))|pub) (?!use )(\S+)')
USE = re.compile(r'\s*(?:ghost )?(?:pub )?use Rattle\.(\w+)\.specs\.([\w.]+?)(?:\.\{(.*)\})?(?: as (\w+))?;?$')
WORD = re.compile(r"[A-Za-z_][\w']*(?:\.[A-Za-z_][\w']*)*")


def section_of(text):
    """Returns the section of a standard that a comment names, or None."""
    for part in STANDARD.findall(text):
        if re.search(r'gABI|elf\(5\)|psABI|ld\.so|^own$', part):
            return part
    return None


def sentence(text):
    """Returns a comment without its references to sections of standards."""
    for part in STANDARD.findall(text):
        if re.search(r'gABI|psABI|ld\.so|^own$', part) or part == 'elf(5)':
            text = text.replace(f' ({part})', '')
    return text.rstrip('.').replace('|', '\\|')


def definitions_of(path):
    """Returns the section of a file, and its definitions: name, value, description, and a section of its own if it has
    one."""
    lines = path.read_text().splitlines()
    head, k = [], 0
    while k < len(lines) and lines[k].startswith('--'):
        head.append(lines[k][2:].strip())
        k += 1
    common = section_of(' '.join(head)) or 'own'
    found, comment = [], []
    for number, line in enumerate(lines[k:], k + 1):
        named = NAME.match(line)
        if re.match(r'(  )?-- ', line):
            comment.append(line.strip()[3:])
        elif named:
            name = named.group(1).strip('◌') if named.group(1) != '◌' else named.group(1)
            value = VALUE.match(lines[number]) if number < len(lines) else None
            text = ' '.join(comment) or ('' if found else ' '.join(head))
            if text or not found:
                section = section_of(text) or ('gABI' if FIELD.match(text) and common == 'own' else common)
                said = (sentence(text), section)
            elif not value:
                print(f'{path.relative_to(ROOT)}: {name} has no comment of its own')
            found.append((name, value and value.group(1), *said))
            comment = []
        elif not line.startswith('infix'):
            comment = []
    return common, found


def key_of(path):
    """Returns the name of a file of definitions as crate/File."""
    return f'{path.relative_to(ROOT).parts[1]}/{path.stem}'


def read_all():
    """Returns the definitions of each file, by crate/File, crate by crate in the order of CRATES."""
    files, named = {}, [crate for crate, _ in CRATES]
    lacking = {path.parts[-2] for path in (ROOT / 'crates').glob('*/specs')} - set(named)
    gone = {crate for crate in named if not (ROOT / 'crates' / crate).is_dir()}
    twice = {crate for crate in named if named.count(crate) > 1}
    for fault, crates in [('lacks', lacking), ('has, although gone,', gone), ('has twice', twice)]:
        if crates:
            sys.exit(f'CRATES {fault} {", ".join(sorted(crates))}.')
    for crate, _ in CRATES:
        for path in sorted((ROOT / 'crates' / crate / 'specs').glob('*.antt')):
            if path.stem not in ('Lib', 'inside'):
                files[key_of(path)] = definitions_of(path)
    return files


def uses_of(lines):
    """Returns what the names that a text imports refer to: (crate/File, name), with None for all names of a file."""
    uses = {}
    for line in lines:
        used = USE.match(line)
        if used:
            file = f'{used.group(1)}/{used.group(2)}'
            for name in (used.group(3) or '').split(', '):
                uses[name.strip('◌ ')] = (file, name.strip('◌ '))
            if used.group(4):
                uses[used.group(4)] = (file, None)
    return uses


def names_in(text, uses, own, file):
    """Returns the definitions that a text names."""
    found = []
    for word in WORD.findall(text):
        first, *rest = word.split('.')
        if first in uses and uses[first][1]:
            found.append(uses[first])
        elif first in uses and rest:
            found.append((uses[first][0], rest[0]))
        elif first in own:
            found.append((file, first))
    return found


def citations(files):
    """Returns the definitions that each definition names, and those that each file passes on from other files."""
    names, passed = {}, {}
    for crate, _ in CRATES:
        for path in sorted((ROOT / 'crates' / crate / 'specs').glob('*.antt')):
            file = key_of(path)
            if file not in files:
                continue
            lines = path.read_text().splitlines()
            uses, own, name = uses_of(lines), {found[0] for found in files[file][1]}, None
            passed.update({(file, k): v for k, v in uses_of(x for x in lines if x.startswith('pub use')).items()})
            for line in lines:
                if NAME.match(line):
                    name = NAME.match(line).group(1).strip('◌')
                if name and not line.lstrip().startswith(('--', 'use ', 'pub use ')):
                    names.setdefault((file, name), []).extend(names_in(line, uses, own - {name}, file))
    return names, passed


def clause_texts(text, label):
    """Yields the clauses and laws of a label in a text, or its clauses without a label: everything between the braces
    after the label."""
    for begin in re.finditer(r'ensures {' if label == 'result' else rf'(?:ensures {label}|ghost {label}:) {{', text):
        depth, end = 1, begin.end()
        while depth:
            depth += {'{': 1, '}': -1}.get(text[end], 0)
            end += 1
        yield text[begin.end():end - 1]


def cited(files, clauses=CLAUSES):
    """Returns the definitions that the clauses cite, directly or through others."""
    names, passed = citations(files)
    waiting = []
    for file, calls, labels in clauses:
        crate, module = file.split('/')
        lines = (ROOT / 'crates' / crate / 'src' / f'{module}.rt').read_text().splitlines()
        text = '\n'.join(re.sub(r'//.*', '', line) for line in lines)
        for call in calls.split():
            head = re.search(rf'\bfn {call}[<(].*?(?=\n *(?:pub )?fn |\Z)', text, re.S)
            for label in labels.split():
                clauses = list(clause_texts(head.group(0), label)) if head else []
                if not clauses:
                    sys.exit(f'{file}.rt has no clause {label} of {call}.')
                waiting += names_in(' '.join(clauses), uses_of(lines), (), file)
    found = set()
    while waiting:
        one = waiting.pop()
        while one in passed:
            one = passed[one]
        if one in names and one not in found:
            found.add(one)
            waiting += names[one]
    return found


def table(*rows):
    """Returns the lines of a table with these rows of cells; the first row is the heading."""
    lines = ['| ' + ' | '.join(row) + ' |' for row in rows]
    return [lines[0], '|' + '---|' * len(rows[0]), *lines[1:]]


def listed_in(parts):
    """Returns the definitions that READING or PLAIN names."""
    return [(part.split(': ')[0], name) for part in parts for name in part.split(': ')[1].split()]


def reading(files):
    """Returns the lines of the first part."""
    lines = []
    for title, intro, parts in READING:
        rows = [('Definition', 'Says', 'Crate/file')]
        for file, name in listed_in(parts):
            said = PLAIN.get(f'{file}: {name}') or next(found[2] for found in files[file][1] if found[0] == name)
            rows.append((f'`{name}`', said, f'`{file}`'))
        lines += [f'### {title}', '', intro, '', *table(*rows), '']
    return lines


def rows_of(file, common, found):
    """Returns the rows of a file. Constants that share a comment share rows."""
    rows = []
    for name, value, text, section in found:
        listed = f'`{name}`' + (f' = {value}' if value else '')
        text = PLAIN.get(f'{file}: {name}', text)
        text = text if section == common or '(own)' in text else f'{text} ({section})'
        if value and rows and rows[-1][1] == text and len(rows[-1][0]) < 90:
            rows[-1] = (f'{rows[-1][0]}, {listed}', text)
        else:
            rows.append((listed, text))
    return [(f'**`{file.split("/")[1]}.antt`**', f'**{common}**'), *rows] if rows else []


def crate_rows(files, crate, wanted):
    """Returns the rows of a crate that are in `wanted`."""
    rows = []
    for file, (common, found) in files.items():
        if file.split('/')[0] == crate:
            rows += rows_of(file, common, [one for one in found if wanted((file, one[0]))])
    return rows


def page(files, first, needed):
    """Returns the page of all definitions except the main ones, crate by crate."""
    lines = [HEAD]
    for crate, title in CRATES:
        groups = [lambda one: one in needed and one not in first, lambda one: one not in needed]
        parts = [(heading, crate_rows(files, crate, wanted)) for heading, wanted in zip(HEADINGS, groups)]
        if any(rows for _, rows in parts):
            lines += [f'## {crate}', '', f'{title}.', '']
        for heading, rows in parts:
            lines += [heading, '', *table(('Definition', 'Says'), *rows), ''] if rows else []
    return '\n'.join(lines)


def lines_of(files, wanted):
    """Returns the number of lines of these definitions, without comments, imports and empty lines."""
    count = 0
    for path in sorted((ROOT / 'crates').glob('*/specs/*.antt')):
        file, name = key_of(path), None
        for line in path.read_text().splitlines():
            if NAME.match(line):
                name = NAME.match(line).group(1).strip('◌')
            is_said = line.strip() and not line.lstrip().startswith(('--', 'use ', 'pub use '))
            count += bool(is_said and file in files and (file, name) in wanted)
    return count


def every_of(files):
    """Returns all definitions, as (crate/File, name)."""
    return [(file, found[0]) for file, (_, all_found) in files.items() for found in all_found]


def all_of_them():
    """Returns the definitions of each file; the main ones; and those that the clauses cite."""
    files = read_all()
    every, needed = set(every_of(files)), cited(files)
    first = listed_in(part for _, _, parts in READING for part in parts)
    for one in first + listed_in(PLAIN):
        if one not in every:
            sys.exit(f'{one[0]} has no definition {one[1]}.')
    for one in first:
        if one not in needed:
            sys.exit(f'No clause rests on {one[1]} of {one[0]}.')
    return files, first, needed


def numbers(files, first, needed):
    """Returns the sentence with the numbers of definitions."""
    every = every_of(files)
    format_count = sum(file.startswith(('elf_file/', 'elf_dynamic/')) for file, _ in needed)
    headline = cited(files, [clause for clause in CLAUSES if clause[:2] in HEADLINE])
    return (f'There are {len(every):,} definitions in all. The clauses above cite {len(needed):,} of them ({lines_of(files, needed):,} '
            f'lines), directly or through others. The clauses of `Registry::format`, `open`, `apply` and `run` cite {len(headline)} '
            f'({lines_of(files, headline):,} lines). Of the cited definitions, {format_count} are of the ELF format: its constants, its '
            f'fields, and the tests of a file. The {len(first)} main definitions are below. [DEFINITIONS](DEFINITIONS.md) has the other '
            f'{len(needed) - len(first)}, and the {len(every) - len(needed)} that only contracts of single crates cite.')
