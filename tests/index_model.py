"""What fjall-index-run must answer: a model of an index, of the commands that were accepted, and of what a crash may leave of them."""
from collections import namedtuple

from sim_model import Wrong

OK, STALE, POISONED, SAME = 'ok', 'error 23 IndexStale', 'error 8 Poisoned', 'error 24 SameKeyspace'
BAD_LINE, UNKNOWN, CLOSED, SHUT = 'error 0 BadLine', 'error 19 UnknownKeyspace', 'error 20 SnapshotClosed', 'shut'
EMPTY, LONG = 'error 12 KeyEmpty', 'error 13 KeyTooLong'
FAULTS = ('error 1 Io', 'error 17 OutOfMemory')
# Lines that a poisoned core refuses, where they would change its disk.
CHANGES = ('index', 'rebuild', 'put', 'del', 'load', 'commit', 'insert', 'remove', 'flush', 'persist', 'close')
# Those of an index that is open.
OF_INDEX = ('put', 'del', 'find', 'load', 'check', 'begin', 'put-in', 'del-in', 'commit', 'rollback', 'find-at')


def read(word):
    """The bytes that a word spells."""
    if 'x' in word:
        byte, count = word.split('x')
        return bytes.fromhex(byte) * int(count)
    return b'' if word == '-' else bytes.fromhex(word)


def pairs_text(pairs):
    return ' '.join(['pairs'] + ['%s=%s' % (key.hex() or '-', value.hex() or '-') for key, value in sorted(pairs.items())])


class Spec(namedtuple('Spec', 'main index at len')):
    """Which index it is: the names of its keyspaces, and where the field stands in a value."""

    def field(self, value):
        return None if value is None or len(value) < self.at + self.len else value[self.at:self.at + self.len]

    def entry(self, key, value):
        """The entry of a pair, where it has one."""
        field = self.field(value)
        return None if field is None else field.replace(b'\x00', b'\x00\xff') + b'\x00\x01' + key

    def entries(self, pairs):
        found = {self.entry(key, value): b'' for key, value in pairs.items()}
        found.pop(None, None)
        return found

    def is_right(self, state):
        return state.get(self.index, {}) == self.entries(state.get(self.main, {}))

    def found(self, state, field):
        return {key: value for key, value in state[self.main].items() if self.field(value) == field}

    def change(self, pairs, key, new):
        """What a key's new value changes, by keyspace; or the text of a refusal."""
        if not key or len(key) > 65_535:
            return LONG if key else EMPTY
        goes, comes = self.entry(key, pairs.get(key)), self.entry(key, new)
        changed = {} if goes == comes else {entry: value for entry, value in ((goes, None), (comes, b'')) if entry is not None}
        if any(len(entry) > 65_535 for entry in changed):
            return LONG
        return {self.main: {key: new}, self.index: changed}

    def words(self):
        return [self.main, self.index, str(self.at), str(self.len)]


class Some(str):
    """An answer of some of these pairs, whichever."""

    def __eq__(self, answer):
        return set(answer.split()) <= set(self.split())

    __hash__ = None


def spec_of(words):
    return Spec(words[0], words[1], int(words[2]), int(words[3]))


def fold(commands):
    """What stands behind these commands: the pairs of each keyspace. A command gives keys of keyspaces values, or none; one without
    a key makes its keyspace."""
    state = {}
    for command in commands:
        for name, changes in command.items():
            pairs = state.setdefault(name, {})
            for key, value in changes.items():
                if value is None:
                    pairs.pop(key, None)
                else:
                    pairs[key] = value
    return state


def joined(changes):
    """The changes of several keys as one command."""
    command = {}
    for changed in changes:
        for name, pairs in changed.items():
            command.setdefault(name, {}).update(pairs)
    return command


class Tx:
    """A transaction: what it reads, what each key that it changed writes, and how many committed before it began."""

    def __init__(self, state, since):
        self.state, self.since, self.changes = state, since, {}


class Model:
    """A core over a disk, with the index that is open on it."""

    def __init__(self, commands=(), safe=0):
        # How many lines have numbers before this core is there.
        self.numbered = 0
        # Behind the commands that were accepted, those that a call tried which met a fault: a crash may leave a beginning of them.
        self.commands, self.tried, self.safe = list(commands), [], safe
        # How many of those the core may show: keyspaces that a call made which was refused behind that.
        self.counts = [0]
        # None where it isn't known.
        self.is_poisoned = False
        # What a crash may leave where the fault was met, and how much it must; None where it may still come.
        self.at_fault = ()
        self.slots, self.shown = [], {}
        self.shut()

    def shut(self):
        self.is_open, self.spec, self.log = False, None, []
        self.slots = [None] * len(self.slots)

    # ---- what is due

    def slot(self, word, kind):
        at = int(word) - 1 - self.numbered
        found = self.slots[at] if 0 <= at < len(self.slots) else None
        return found if isinstance(found, kind) else None

    def due(self, words, state):
        """The answer that is due where the core shows a state, and the commands that are accepted with it."""
        word = words[0]
        if word == 'open' or not self.is_open:
            is_bad = word in OF_INDEX or words == ['rebuild']
            return ('open' if self.is_open else OK if word == 'open' else BAD_LINE if is_bad else SHUT), []
        if len(words) == 5 and word in ('index', 'rebuild'):
            return self.due_of_spec(word, spec_of(words[1:]), state)
        if word in ('insert', 'remove', 'pairs', 'flush'):
            return self.due_of_keyspace(words, state)
        if word in ('begin', 'put-in', 'del-in', 'commit', 'rollback', 'find-at') or words[:1] == ['close'] and len(words) == 2:
            return self.due_of_number(words)
        if word in ('persist', 'close', 'snapshot'):
            return (OK if word != 'snapshot' else 'snapshot %d' % (self.numbered + len(self.slots))), []
        return self.due_of_index(words, state)

    def due_of_spec(self, word, spec, state):
        if spec.main == spec.index and (word == 'index' or spec.main in state):
            return SAME, []
        missing = [name for name in spec[:2] if name not in state]
        if word == 'index':
            return (OK if spec.is_right(state) else STALE), [{name: {}} for name in missing]
        return (UNKNOWN, []) if missing else self.due_of_rebuild(spec, state)

    def due_of_rebuild(self, spec, state):
        entries, found = spec.entries(state[spec.main]), state[spec.index]
        if any(len(entry) > 65_535 for entry in entries):
            return LONG, []
        changes = {entry: None for entry in found if entry not in entries}
        changes.update((entry, b'') for entry in entries if found.get(entry) != b'')
        return OK, [{spec.index: changes}] if changes else []

    def due_of_keyspace(self, words, state):
        if words[1] not in state:
            return UNKNOWN, []
        if words[0] == 'pairs':
            return pairs_text(state[words[1]]), []
        if words[0] == 'flush':
            return OK, []
        return OK, [{words[1]: {read(words[2]): read(words[3]) if words[0] == 'insert' else None}}]

    def due_of_index(self, words, state):
        spec, word = self.spec, words[0]
        if spec is None:
            return BAD_LINE, []
        if word == 'find':
            return self.due_of_find(state, read(words[1])), []
        if word == 'check':
            return (OK if spec.is_right(state) else STALE), []
        if word == 'rebuild':
            return self.due_of_rebuild(spec, state)
        given = {'put': words[1:3], 'del': [words[1], None]}.get(word) if word != 'load' else None
        pairs = [given] if given else [pair.split('=') for pair in words[1:]]
        changes = {}
        for key, value in pairs:
            changes[read(key)] = spec.change(state[spec.main], read(key), None if value is None else read(value))
            if isinstance(changes[read(key)], str):
                return changes[read(key)], []
        return OK, [joined(changes.values())] if changes else []

    def due_of_find(self, state, field):
        """The pairs with a field; where the index is stale just those of the main keyspace are known."""
        if self.spec.is_right(state):
            return pairs_text(self.spec.found(state, field))
        return Some(pairs_text(state[self.spec.main]))

    def due_of_number(self, words):
        word, rest = words[0], words[2:]
        if word == 'close':
            return (CLOSED if self.slot(words[1], dict) is None else OK), []
        if self.spec is None:
            return BAD_LINE, []
        if word == 'begin':
            return 'tx %d' % (self.numbered + len(self.slots)), []
        found = self.slot(words[1], dict if word == 'find-at' else Tx)
        if found is None:
            return CLOSED, []
        if word == 'find-at':
            return self.due_of_find(found, read(rest[0])), []
        if word == 'commit':
            if any(found.changes.keys() & keys for keys in self.log[found.since:]):
                return 'conflict', []
            return OK, [joined(found.changes.values())] if found.changes else []
        changed = OK if word == 'rollback' else self.change_in(found, word, rest)
        return (changed if isinstance(changed, str) else OK), []

    def change_in(self, tx, word, rest):
        return self.spec.change(tx.state[self.spec.main], read(rest[0]), read(rest[1]) if word == 'put-in' else None)

    # ---- what is heard

    def hear(self, words, answer):
        """Takes what a line was answered."""
        if words[0] in ('begin', 'snapshot'):
            self.slots.append(None)
        if self.at_fault is None and answer in FAULTS:
            return self.meet(words, answer)
        if answer == POISONED and self.is_poisoned is not False and words[0] in CHANGES:
            self.is_poisoned = True
            return self.end(words)
        states = [fold(self.commands + self.tried[:count]) for count in self.counts]
        dues = [self.due(words, state) for state in states]
        found = [at for at, (due, _) in enumerate(dues) if answer == due]
        if not found:
            raise Wrong('%s: %s, not %s' % (' '.join(words)[:100], answer[:300], dues[0][0][:300]))
        self.counts = [self.counts[at] for at in found]
        commands = dues[found[0]][1]
        self.accept(words, answer, self.tried[:self.counts[0]] + commands if commands else [], states[found[0]])

    def accept(self, words, answer, commands, state):
        """Takes an answer that is due, and the commands that are accepted with it."""
        word = words[0]
        if commands:
            if self.is_poisoned:
                raise Wrong('%s is done by a poisoned core' % ' '.join(words))
            self.is_poisoned, self.tried, self.counts = False, [], [0]
            self.commands += commands
            if word == 'index':
                # What makes a keyspace syncs what was before it.
                self.safe = len(self.commands)
        if answer == OK and word in ('persist', 'close') and len(words) == 1:
            # Only a core that isn't poisoned does so.
            self.is_poisoned, self.tried = False, [command for command in self.tried if not any(command.values())]
            self.safe = len(self.commands)
        if answer == OK and word in ('put', 'del', 'load', 'commit'):
            self.log.append(set().union(*(command.get(self.spec.main, {}).keys() for command in commands)))
        self.note(words, answer, state)
        self.end(words)

    def note(self, words, answer, state):
        """What a line opens, or changes in a transaction."""
        word = words[0]
        if answer == OK and word in ('index', 'rebuild') and len(words) == 5:
            self.spec = spec_of(words[1:])
            self.slots = [None if isinstance(slot, Tx) else slot for slot in self.slots]
        elif word == 'begin' and answer.startswith('tx '):
            self.slots[-1] = Tx(state, len(self.log))
        elif word == 'snapshot' and answer.startswith('snapshot '):
            self.slots[-1] = state
        elif answer == OK and word in ('put-in', 'del-in'):
            tx = self.slot(words[1], Tx)
            tx.changes[read(words[2])] = self.change_in(tx, word, words[2:])
        elif word == 'open':
            self.is_open = True

    def end(self, words):
        """What a line ends, whatever it is answered."""
        word = words[0]
        if word == 'close' and len(words) == 1:
            self.shut()
        elif word in ('commit', 'rollback', 'close') and self.slot(words[1], dict if word == 'close' else Tx) is not None:
            self.slots[int(words[1]) - 1 - self.numbered] = None

    def meet(self, words, answer):
        """A line met the fault, or found no memory: nothing was tried then, but that an index makes its keyspaces first."""
        _, commands = self.due(words, fold(self.commands))
        self.tried = commands if answer == FAULTS[0] or words[0] == 'index' else []
        self.counts = list(range(len(self.tried) + 1)) if words[0] == 'index' else [0]
        if answer == FAULTS[0] and words[0] in CHANGES:
            self.is_poisoned = None
        self.at_fault = (self.commands + self.tried, self.safe)
        self.end(words)

    # ---- openings

    def see(self, name, answer, is_last):
        """Takes what a keyspace shows behind an opening, and behind the last one finds what stands there: all of that is safe from then
        on."""
        if self.at_fault is None and answer in FAULTS:
            self.at_fault = (self.commands + self.tried, self.safe)
        else:
            self.shown[name] = answer
        if is_last:
            self.find_commands()

    def find_commands(self):
        """Finds a beginning of the commands, the longest one, that leaves what is shown."""
        tried = self.commands + self.tried
        for count in range(len(tried), self.safe - 1, -1):
            state = fold(tried[:count])
            if all(answer == self.due_of_keyspace(['pairs', name], state)[0] for name, answer in self.shown.items()):
                self.commands, self.tried, self.counts = tried[:count], [], [0]
                self.safe, self.is_poisoned = count, False
                return
        raise Wrong('%s is none of %d commands, %d at least' % (self.shown, len(tried), self.safe))
