"""The order of the calls that the program `rlibreg` makes, as `medium.c` logs them, for `syncs.py`:

- lock, sync, the roots compared with the medium's;
- if they differ, more and more of the front of the file dropped from memory until it is gone, and the roots compared again,
  or written;
- the first read, once they agree;
- all writes before the sync, and the sync before the reply and before a name is given;
- the lock until the last sync."""

from machines import PAGE, ROOTS, has_failed

# The maximum length of the front that is dropped from memory.
FRONT = 2 << 20


class OpenFile:
    """The calls on an open file so far, through all its descriptors."""

    def __init__(self, is_made):
        self.descriptors, self.lock, self.synced, self.read, self.written = 1, '', False, False, False
        self.is_made = is_made
        # Whether the roots are known to be those of the medium, and whether nobody can find this
        # out.
        self.agrees = self.is_blind = False
        # The length of the last drop, and whether the front was gone after it.
        self.let_go, self.is_gone = 0, False


class Order:
    def __init__(self, log, shared):
        self.log, self.shared, self.files, self.faults = log, shared, {}, set()
        # Whether a write still needs a sync, and whether a name still needs the sync of its folder and the question after
        # that sync.
        self.waiting = self.unnamed = self.unasked = False
        self.letting_go = None
        self.last_sync = max([at for at, line in enumerate(log) if line[0] == 'sync'], default=-1)

    def run(self):
        for self.at, (call, *words) in enumerate(self.log):
            if call in ('link', 'rename', 'unlink'):
                self.name(call, words)
            elif call != 'reply' and words[1:2] != ['folder']:
                getattr(self, call)(self.files.get(words[0]), words)
            elif call == 'sync' and words[-1] == '0':
                self.unnamed = False
            elif call == 'names':
                self.unasked = self.unnamed
            elif call == 'reply' and (self.waiting or self.unnamed or self.unasked) and not has_failed(self.log):
                self.faults.add('the reply comes before the sync')
        return self.faults

    def fault_if(self, there, what):
        if there:
            self.faults.add(what)

    def open(self, _, words):
        self.files[words[0]] = OpenFile(words[2] == 'made')

    def double(self, file, words):
        if file:
            self.files[words[1]] = file
            file.descriptors += 1

    def close(self, file, words):
        del self.files[words[0]]
        file.descriptors -= 1
        self.fault_if(not file.descriptors and file.written and self.at < self.last_sync, 'the lock is let go before the last sync')

    def lock(self, file, words):
        if words[-1] == '0':
            self.fault_if(file.lock and self.at < self.last_sync and words[1] != file.lock, 'the lock is let go before the last sync')
            self.fault_if(file.read, 'the lock is taken after the first read')
            file.lock = words[1]
        self.fault_if(words[2] != 'at-once', 'the lock is waited for')

    def is_locked(self, file):
        return file.lock == 'exclusive' or self.shared and file.lock == 'shared'

    def looked(self, file, words):
        self.fault_if(not self.is_locked(file), 'it is read without its lock')
        self.fault_if(not file.synced or words[1:] != ['0', str(PAGE)], 'the roots are compared before the sync')

    def kept(self, file, words):
        """Handles a read of memory: it belongs to a comparison if the next call reads the medium, and otherwise it
        is a plain read."""
        behind = self.log[self.at + 1:self.at + 2]
        is_compared = behind and behind[0][0] in ('past', 'refused')
        (self.looked if is_compared else self.read)(file, words)

    def past(self, file, words):
        self.looked(file, words[:3] if words[2] != '-1' else [*words[:2], str(PAGE)])
        file.agrees = words[3] == 'same' and words[2] != '-1'

    def refused(self, file, _):
        file.is_blind = True

    def read(self, file, _):
        if not file.read:
            self.fault_if(not self.is_locked(file), 'it is read without its lock')
            forgotten = file.is_blind and (file.is_gone or file.let_go == FRONT)
            self.fault_if(not file.synced or not file.agrees and not forgotten, 'it is read before its roots are known to be the medium\'s')
        file.read = True

    def letgo(self, file, words):
        is_first = file.is_gone or file.let_go in (0, FRONT)
        size = PAGE if is_first else 2 * file.let_go
        is_right = file.synced and not file.read and not file.agrees and words[1:] == ['0', str(size)]
        self.fault_if(not is_right, 'the cache is let go at another time or place')
        file.let_go, file.is_gone, self.letting_go = size, False, file

    def asked(self, _, words):
        if self.letting_go:
            self.letting_go.is_gone = words == ['gone']

    def write(self, file, words):
        self.fault_if(file.lock != 'exclusive', 'it is written without its lock')
        as_shown = file.let_go and words[1:] == ['0', str(ROOTS)]
        self.fault_if(not (file.agrees or file.read or file.is_made or as_shown), 'it is written before its roots are known to be the medium\'s')
        self.waiting = file.written = True

    def truncate(self, file, _):
        self.fault_if(file.lock != 'exclusive', 'it is written without its lock')

    def sync(self, file, words):
        if words[-1] == '0':
            file.synced, self.waiting = True, False

    def name(self, call, words):
        if words[-1] == '0':
            self.fault_if(self.waiting and call != 'unlink', 'a name is given before the sync')
            self.unnamed = self.unasked = True
