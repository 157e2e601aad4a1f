"""Random lines for fjall-shell, and for each those of fjall-sim that stand for it, with what their answers make due.

A keyspace's change in a database with transactions is one transaction, so that there three lines stand for it. What fjall-sim has no
line for is told by a page of pairs."""
import random

NAMES = {'a': '', 'b': ' l0 2 tables 600', 'c': ' manual', 'busy': ' memtable 300 l0 2 tables 600'}
KEYS = ['00', '61', '6100', '6161', '6162', '61ff', '61ffff', '62', '62x300', 'fe', 'ff', 'ff00', 'ffff']
KEYS += ['%04x' % number for number in [*range(6), 127, 128, 129, 255]] + ['7a%02x' % number for number in range(9)]
WRONG_KEYS = {'-': 'error 12 KeyEmpty', '61x65536': 'error 13 KeyTooLong'}
UNKNOWN, CLOSED, BAD = 'error 19 UnknownKeyspace', 'error 20 SnapshotClosed', 'error 0 BadLine'
MODES = ['none', 'buffer', 'data', 'all']
MANY = 99999
# The reads that fjall-sim has too: of the present, of a snapshot, of a transaction.
OWN = {'%s %s': ['get', 'len', 'scan', 'page'], '%s_at %s': ['get', 'page'], 'tx_%s %s': ['get', 'page']}
# Counts that no worker changes, and all others.
STEADY = ['keyspaces', 'seqno', 'visible', 'journals', 'snapshots']
OTHERS = ['journal_space', 'write_buffer', 'space', 'outstanding', 'merging', 'merged']
OF_KEYSPACE = ['versions', 'sealed', 'tables', 'level0', 'space']


def is_refusal(answer):
    return answer.startswith('error ')


def outcome(answers):
    """What a change is answered that stands for several lines: the first refusal, or ok."""
    return next(filter(is_refusal, answers), 'ok')


def middle(answers):
    """The same where the line between the first and the last tells a value."""
    return next(filter(is_refusal, answers), answers[1])


def of_pairs(tell):
    """What a page is answered, or what is told of its pairs."""
    def due(answers):
        return answers[0] if is_refusal(answers[0]) else tell([pair.split('=') for pair in answers[0].split()[1:]])
    return due


def flag(is_so):
    return 'true' if is_so else 'false'


def text(pairs):
    return ' '.join(['pairs'] + ['='.join(pair) for pair in pairs])


def length(word):
    return 0 if word == '-' else len(word) // 2


def taken(letters):
    """What is told of pairs that are taken from their ends."""
    def tell(pairs):
        left, words = list(pairs), []
        for letter in letters:
            words.append('='.join(left.pop(0 if letter == 'f' else -1)) if left else 'none')
        return ' '.join(['pairs'] + words)
    return tell


def behind(prefix):
    """The bound behind all keys with a prefix."""
    digits = '' if prefix == '-' else prefix
    while digits.endswith('ff'):
        digits = digits[:-2]
    return '!%0*x' % (len(digits), int(digits, 16) + 1) if digits else '*'


class Lines:
    """Lines for fjall-shell, and those of fjall-sim that stand for them."""

    def __init__(self, kind, workers, seed):
        self.kind, self.workers, self.random = kind, workers, random.Random('%s %d %s' % (kind, workers, seed))
        # Each line with the places of those that stand for it, and what their answers make due.
        self.rows, self.core = [], ['open']
        # How many lines with a number were there, and the number that stands for each of the shell.
        self.numbered, self.numbers = 0, [0]
        self.names, self.next_id = {}, 1
        self.begin_life()
        for name in NAMES:
            self.keyspace(name)

    def begin_life(self):
        self.handles, self.deleted, self.snapshots, self.transactions = {}, set(), [], []
        # A number of an earlier life, which would end the core's list of calls, stands for nothing there.
        self.first = len(self.numbers)
        # Keyspaces with a sealed memtable, and those that wait for a flush.
        self.sealed, self.queue = set(), []

    def say(self, line, lines, due):
        """A line, and those that stand for it."""
        self.rows.append((line, len(self.core), len(self.core) + len(lines), due))
        self.core += lines

    def alike(self, line):
        """A line that both have."""
        self.say(line, [line], lambda answers: answers[0])

    def expect(self, line, due):
        self.say(line, [], lambda answers: due)

    def of_opened(self, word, number, rest='', core=None):
        """A line of a snapshot or a transaction, which may not be open."""
        if number < self.first:
            self.expect('%s %d%s' % (word, number, rest), CLOSED)
        else:
            stands = '%s %d%s' % (core or word, self.mapped(number), rest)
            self.say('%s %d%s' % (word, number, rest), [stands], lambda answers: answers[0])

    # ---- words

    def pick(self, things):
        return self.random.choice(list(things))

    def chance(self, share):
        return self.random.random() < share

    def id(self):
        """Mostly the id of a keyspace with a handle, which may be deleted."""
        return 99 if self.chance(0.03) or not self.handles else self.pick(self.handles)

    def living(self):
        return [id for id in self.handles if id not in self.deleted]

    def key(self):
        return self.pick(WRONG_KEYS) if self.chance(0.03) else self.pick(KEYS)

    def value(self):
        return '77x5000' if self.chance(0.03) else self.pick(['-', '%04x' % self.random.randrange(65536), '00', '76616c7565'])

    def new(self):
        return '~' if self.chance(0.3) else self.value()

    def bounds(self):
        ends = sorted(self.random.sample([key for key in KEYS if 'x' not in key], 2), reverse=self.chance(0.1))
        return ' '.join('*' if self.chance(0.2) else self.pick('=!') + end for end in ends)

    def open_number(self, numbers):
        """Mostly one of these numbers, else one of something that isn't open or is of another kind."""
        if numbers and not self.chance(0.04):
            return self.pick(numbers)
        return self.random.randrange(1, len(self.numbers) + 2)

    def mapped(self, number):
        return self.numbers[number] if number < len(self.numbers) else MANY

    def new_number(self):
        self.numbered += 1
        return self.numbered

    # ---- keyspaces

    def keyspace(self, name):
        """Asks for a handle of a keyspace, which is made where none has the name."""
        line = 'keyspace %s%s' % (name, NAMES[name])
        if name not in self.names:
            self.names[name], self.next_id = self.next_id, self.next_id + 1
        id = self.names[name]
        self.say(line, [line] + ['retain %d' % id] * (id not in self.handles), lambda answers: answers[0])
        self.handles[id] = name

    def keyspaces(self):
        what = self.pick(['again', 'wrong', 'names', 'exists', 'name', 'path'] + ['delete', 'drop'] * self.chance(0.3))
        id = self.id()
        if what == 'again':
            self.keyspace(self.pick(NAMES))
        elif what == 'wrong':
            self.alike('keyspace 0x' + self.pick(['', '61x256', '61x999']))
        elif what == 'names':
            self.alike('names')
        elif what == 'exists':
            self.alike('exists ' + self.pick(['61', '62', '62757379', '7a', '-']))
        elif id not in self.handles:
            self.expect('%s %d' % (what, id), UNKNOWN)
        elif what == 'name':
            self.expect('name %d' % id, 'text ' + self.handles[id].encode().hex())
        elif what == 'path':
            self.expect('path %d' % id, 'path keyspaces/%d' % id)
        elif what == 'drop':
            self.drop(id)
        else:
            self.delete(id)

    def drop(self, id):
        """Drops a handle. A deleted keyspace is gone with it once another handle is made."""
        self.say('drop %d' % id, ['release %d' % id], lambda answers: 'ok')
        name = self.handles.pop(id)
        if id in self.deleted:
            self.deleted.discard(id)
            self.keyspace(name)

    def delete(self, id):
        self.alike('delete %d' % id)
        if id not in self.deleted:
            del self.names[self.handles[id]]
        self.deleted.add(id)
        self.sealed.discard(id)

    def reopen(self):
        self.alike('reopen')
        self.begin_life()
        for name in NAMES:
            self.keyspace(name)

    # ---- writes

    def change(self, id, words, due=outcome):
        """A change of one key, which is a transaction of its own where there are any."""
        line = '%s %d %s' % (words[0], id, ' '.join(words[1:]))
        if id not in self.handles:
            self.expect(line, UNKNOWN)
        elif self.kind == 'plain':
            self.alike(line)
        else:
            self.say(line, self.as_transaction(id, words), due)

    def as_transaction(self, id, words):
        begin, commit = {'optimistic': ('begin', 'commit'), 'single': ('begin_single', 'commit_single')}[self.kind]
        number = self.new_number()
        return [begin, 'tx_%s %d %d %s' % (words[0], number, id, ' '.join(words[1:])), '%s %d' % (commit, number)]

    def write(self):
        word = self.pick(['insert'] * 4 + ['remove', 'remove_weak'])
        self.change(self.id(), (word, self.key(), self.value()) if word == 'insert' else (word, self.key()))

    def update(self):
        words = self.pick([('take', self.key()), ('fetch_update', self.key(), self.new()), ('update_fetch', self.key(), self.new())])
        if self.kind != 'plain':
            self.change(self.id(), words, middle)
        elif self.chance(0.1):
            self.expect('%s 1 %s' % (words[0], ' '.join(words[1:])), BAD)

    def at_once(self):
        """Many writes at once."""
        id, keys = self.id(), sorted(self.random.sample(KEYS, self.random.randrange(5)))
        if self.chance(0.05):
            keys = [self.pick(WRONG_KEYS)] + keys
        pairs = ['%s %s' % (key, self.new()) for key in keys]
        others = [self.pick(self.living() or [id]) for _ in pairs]
        if id not in self.handles:
            lines = ['clear %d', 'ingest %d 61 62', 'ingest_many %d 3', 'batch %d 61 62', 'commit_batch all %d 61 ~']
            self.expect(self.pick(lines) % id, UNKNOWN)
        elif self.chance(0.3):
            self.ingest(id, keys, pairs)
        elif self.chance(0.1):
            self.alike('clear %d' % id)
        else:
            word = self.pick(['batch', 'commit_batch ' + self.pick(MODES)])
            self.alike(' '.join([word] + ['%d %s' % one for one in zip(others, pairs)]))

    def ingest(self, id, keys, pairs):
        """A bulk write, which puts what is in memory into a table too."""
        if self.chance(0.4):
            count = self.pick([0, 3, 128, 129, 300, 300])
            self.alike('ingest_many %d %d' % (id, count))
            self.sealed -= {id} if count else set()
        elif self.chance(0.1):
            self.alike(' '.join(['ingest %d' % id, '62 62', '61 61']))
        else:
            self.alike(' '.join(['ingest %d' % id] + pairs))
            self.sealed -= set() if set(keys) & set(WRONG_KEYS) or not keys else {id}

    def insert_many(self):
        id, count = self.id(), self.random.randrange(6)
        line = 'insert_many %d %d' % (id, count)
        if id not in self.handles:
            self.expect(line, UNKNOWN)
            return
        writes = [('insert', '%04x' % key, '76') for key in range(count)]
        if self.kind == 'plain':
            self.say(line, ['insert %d %s %s' % (id, *words[1:]) for words in writes], outcome)
        else:
            self.say(line, [one for words in writes for one in self.as_transaction(id, words)], outcome)

    # ---- reads

    def read(self, form, at, core_at):
        """A read: how its line begins, and at what it and the line that stands for it are."""
        key, prefix = self.key(), self.pick(['-', '00', '61', '6161', '61ff', 'ff', 'ffff', '7a'])
        bounds, most = self.bounds(), self.pick([0, 1, 2, 5, 200])
        at_key = '=%s =%s 1' % (key, key)
        word, asked, page, tell = self.pick([
            ('get', key, '', None),
            ('contains', key, at_key, lambda pairs: flag(pairs)),
            ('size', key, at_key, lambda pairs: 'count %d' % length(pairs[0][1]) if pairs else 'none'),
            ('len', '', '* * %d' % MANY, lambda pairs: 'count %d' % len(pairs)),
            ('is_empty', '', '* * 1', lambda pairs: flag(not pairs)),
            ('first', '', '* * 1', text),
            ('last', '', '* * 1 back', text),
            ('scan', '', '* * %d' % MANY, text),
            ('range', bounds, '%s %d' % (bounds, MANY), text),
            ('prefix', prefix, '=%s %s %d' % (prefix, behind(prefix), MANY), text),
            ('page', '%s %d' % (bounds, most), '', None),
            ('page', '%s %d back' % (bounds, most), '', None),
        ])
        line = (form % (word, at) + ' ' + asked).rstrip()
        if word in OWN[form]:
            return line, (form % (word, core_at) + ' ' + asked).rstrip(), lambda answers: answers[0]
        return line, form % ('page', core_at) + ' ' + page, of_pairs(tell)

    def read_now(self):
        id = self.id()
        line, core, due = self.read('%s %s', id, id)
        if self.chance(0.1):
            letters = ''.join(self.pick('ffb') for _ in range(self.pick([1, 3, 9, 200])))
            line, core, due = 'ends %d %s' % (id, letters), 'page %d * * %d' % (id, MANY), of_pairs(taken(letters))
        if id in self.handles:
            self.say(line, [core], due)
        else:
            self.expect(line, UNKNOWN)

    def read_opened(self, numbers, form):
        """A read in a snapshot or a transaction, of which these numbers are open."""
        id, number = self.id(), self.open_number(numbers)
        line, core, due = self.read(form, '%d %d' % (number, id), '%d %d' % (self.mapped(number), id))
        if number not in numbers:
            self.expect(line, CLOSED)
        elif id not in self.handles:
            self.expect(line, UNKNOWN)
        else:
            self.say(line, [core], due)

    # ---- snapshots

    def snapshot(self):
        number = self.open_number(self.snapshots)
        if self.snapshots and self.chance(0.5):
            self.read_opened(self.snapshots, '%s_at %s')
        elif len(self.snapshots) > 3 or self.chance(0.2):
            self.of_opened('close_snapshot', number)
            self.snapshots = [one for one in self.snapshots if one != number]
        elif self.chance(0.6):
            self.snapshots.append(len(self.numbers))
            self.opening('snapshot', ['snapshot'], 'snapshot')
        else:
            self.snapshots += [len(self.numbers)] * (number in self.snapshots)
            core = 'clone_snapshot %d' % self.mapped(number)
            self.opening('clone_snapshot %d' % number, [core] * (number >= self.first), 'snapshot')

    def opening(self, line, core, word):
        """A line that gets a number, also where none stands for it."""
        number = len(self.numbers)
        self.numbers.append(self.new_number() if core else MANY)
        opened = '%s %d' % (word, number)
        self.say(line, core, lambda answers: CLOSED if not answers else answers[0] if is_refusal(answers[0]) else opened)

    # ---- transactions

    def begin(self):
        if self.kind != 'single' or not self.transactions:
            self.transactions.append(len(self.numbers))
        line = 'begin_single' if self.kind == 'single' else 'begin'
        self.opening(line, [line], 'tx')

    def within(self):
        """A change within a transaction."""
        id, number = self.id(), self.open_number(self.transactions)
        word = self.pick(['insert', 'insert', 'remove', 'remove_weak', 'take', 'fetch_update', 'update_fetch'])
        value = {'insert': [self.value()], 'fetch_update': [self.new()], 'update_fetch': [self.new()]}.get(word, [])
        line = 'tx_%s %%d %d %s' % (word, id, ' '.join([self.key()] + value))
        if number not in self.transactions:
            self.expect(line % number, CLOSED)
        elif id not in self.handles:
            self.expect(line % number, UNKNOWN)
        else:
            self.say(line % number, [line % self.mapped(number)], lambda answers: answers[0])

    def end(self):
        """A transaction ends."""
        number = self.open_number(self.transactions)
        commit = 'commit_single' if self.kind == 'single' else 'commit'
        word = self.pick([commit, commit, commit, 'rollback', 'drop_tx'])
        self.of_opened(word, number, core='rollback' if word == 'drop_tx' else None)
        self.transactions = [one for one in self.transactions if one != number]

    def transaction(self):
        if self.kind == 'plain':
            if self.chance(0.05):
                self.expect(self.pick(['begin', 'begin_single', 'commit 1', 'rollback 1', 'tx_get 1 1 61', 'drop_tx 1']), BAD)
        elif self.chance(0.2) if not self.transactions else self.chance(0.12) and len(self.transactions) < 4:
            self.begin()
        elif self.chance(0.3 if self.kind == 'single' else 0.2):
            self.end()
        elif self.chance(0.04):
            self.of_opened('tx_durability', self.open_number(self.transactions), ' ' + self.pick(MODES))
        elif self.chance(0.5):
            self.read_opened(self.transactions, 'tx_%s %s')
        else:
            self.within()

    # ---- memtables and tables

    def upkeep(self):
        id = self.id()
        if self.chance(0.3):
            self.alike(self.pick(['persist'] + ['persist ' + mode for mode in MODES[1:]]))
        elif id not in self.living():
            line = self.pick(['rotate', 'rotate_and_wait', 'compact'])
            if id not in self.handles:
                self.expect('%s %d' % (line, id), UNKNOWN)
        elif self.chance(0.3):
            self.say('compact %d' % id, ['merge %d' % id], outcome)
        elif self.handles[id] != 'busy' and not (self.kind == 'single' and self.transactions):
            self.rotate(id)

    def rotate(self, id):
        """Seals what an insert has put into the active memtable; without workers a keyspace that waits longer is flushed first."""
        self.change(id, ('insert', self.pick(KEYS), self.value()))
        self.queue += [id] * (id not in self.queue)
        self.sealed.add(id)
        if self.chance(0.5):
            self.alike('rotate %d' % id)
            if self.chance(0.5):
                self.alike('rotate %d' % id)
            return
        flushes = []
        while id in self.sealed:
            self.queue += [id] * (id not in self.queue)
            first = self.queue.pop(0)
            flushes.append('flush %d' % first)
            self.sealed.discard(first)
        self.say('rotate_and_wait %d' % id, ['rotate %d' % id] + flushes, lambda answers: outcome(answers[:1]))
        self.settled(id)

    def settled(self, id):
        """What is so once workers are done, of a keyspace whose memtable they don't seal by themselves."""
        if self.workers and not self.deleted:
            self.expect('settle', 'ok')
            self.expect('count sealed %d' % id, 'count 0')

    def count(self):
        if self.workers or self.chance(0.3):
            self.alike('count ' + self.pick(STEADY))
        elif self.chance(0.5):
            self.alike('count ' + self.pick(OTHERS))
        else:
            id, what = self.id(), self.pick(OF_KEYSPACE)
            line = 'count %s %d' % (what, id)
            self.alike(line) if id in self.handles else self.expect(line, UNKNOWN)

    def bad(self):
        lines = ['', 'frob 1', 'insert 1 61', 'get 01 61', 'page 1 * *', 'insert 1 6 61', 'count frob', 'keyspace a frob', 'get 1 6A']
        self.expect(self.pick(lines), BAD)

    def fill(self, count):
        """Makes so many lines, with two reopenings."""
        steps = [self.write] * 22 + [self.update] * 4 + [self.at_once] * 8 + [self.insert_many, self.bad] + [self.read_now] * 20
        steps += [self.snapshot] * 16 + [self.transaction] * 30 + [self.upkeep] * 6 + [self.count] * 8 + [self.keyspaces] * 4
        for third in (1, 2, 3):
            while len(self.rows) < count * third // 3:
                self.pick(steps)()
            if third < 3:
                self.reopen()
        self.rows = self.rows[:count]
        return self
