"""The model of the sweeps over fjall-sim: what a database must answer, show and keep that took these lines.

A command is what takes a number of its own: ('keyspace', NAME), ('delete', ID), ('clear', ID), ('write', CHANGES) and
('ingest', CHANGES), where a change is (ID, KEY, VALUE), with None for a removal. What a database shows is the fold of its
commands. A line is the list of its words, but that a snapshot is named by the id of its ticket, None where it got none."""
from dataclasses import dataclass, field

from sim_transactions import BEGINS, COMMITS, ENDS, READS, UPDATES, WITHIN, Transactions

MERGES = ('merge_begin', 'merge_due_begin')
BEGINNINGS = ('flush_begin',) + MERGES
ENDINGS = ('flush_finish', 'merge_finish')
# A merge is due from so many tables at level 0 on, where nothing else is asked for.
DUE = 4


class Wrong(Exception):
    """Something is not as it must be."""


def same(answer, due):
    if answer != due:
        raise Wrong('%s, not %s' % (answer, due))


def is_written(command, id):
    """Whether it leaves a version in the memtable of a keyspace."""
    return command[0] == 'write' and any(change[0] == id for change in command[1])


def is_kept(command, id):
    """Whether it leaves something in the memtable of a keyspace."""
    return is_written(command, id) or command == ('clear', id)


def are_kept(commands, start, end, id):
    """Whether one of these commands, from a place on and before another, leaves something in the memtable of a keyspace."""
    return any(is_kept(command, id) for command in commands[start:end])


def follow(homes, command, new_id):
    """The keyspaces behind a command: id -> (name, pairs)."""
    kind, what = command
    if kind == 'keyspace':
        homes[new_id] = (what, {})
    elif kind == 'delete':
        homes.pop(what, None)
    elif kind == 'clear':
        if what in homes:
            homes[what][1].clear()
    else:
        for id, key, value in what:
            if id in homes and value is None:
                homes[id][1].pop(key, None)
            elif id in homes:
                homes[id][1][key] = value


def fold(commands):
    """The keyspaces that these commands make of nothing."""
    homes, new_id = {}, 1
    for command in commands:
        follow(homes, command, new_id)
        new_id += command[0] == 'keyspace'
    return homes


def pairs_text(pairs):
    """Pairs as the program tells them; keys and values are hexadecimal, which sorts as the bytes do."""
    return ' '.join(['pairs'] + ['%s=%s' % pair for pair in sorted(pairs.items())])


def shown(commands):
    """What `show` answers behind these commands."""
    homes = sorted((name.encode(), id, pairs) for id, (name, pairs) in fold(commands).items())
    texts = ['; %d %s %s' % (id, name.hex(), pairs_text(pairs)) for name, id, pairs in homes]
    return 'shows %d' % len(commands) + ''.join(texts)


def stands(text, commands, safe):
    """A database that shows this stands for a beginning of the commands, with all that are safe; answers how many they are."""
    count = int(text.split(';')[0].split()[1]) if text.startswith('shows ') else -1
    if not safe <= count <= len(commands):
        raise Wrong('%d of %d commands, %d of them safe: %s' % (count, len(commands), safe, text))
    if text != shown(commands[:count]):
        raise Wrong('%s, not %s' % (text, shown(commands[:count])))
    return count


class Tickets:
    """The snapshots of a database since it was opened, and its watermark."""

    def __init__(self):
        # Of each that was given out how many commands it shows, None where it is closed.
        self.shows, self.watermark = [], 0
        # Those of transactions whose end found no memory: they are closed, or not.
        self.unsure = []

    def shown(self, id):
        """How many commands a ticket shows, None where it isn't open."""
        return self.shows[id] if id is not None and id < len(self.shows) else None

    def open(self, count):
        """Opens one that shows so many commands; answers its id."""
        self.shows.append(count)
        return len(self.shows) - 1

    def least(self, accepted):
        """One below the least of what is shown, and not below the watermark."""
        least = min([count for count in self.shows if count is not None] + [accepted])
        return max(self.watermark, least - 1, 0)

    def settle(self, answer, accepted):
        """Those that are closed, or not, are closed where the watermark says so."""
        if answer != 'watermark %d' % self.least(accepted):
            for id in self.unsure:
                self.shows[id] = None
        self.unsure = []

    def gc(self, accepted):
        """Raises the watermark; answers it."""
        self.watermark = self.least(accepted)
        return self.watermark


def last_end(ends, id):
    """Where the last of these of a keyspace ends; 0 where there is none."""
    return next((end for other, end in reversed(ends) if other == id), 0)


class Work:
    """The sealed memtables, flushes and journals of a database. An end is (ID, COUNT): so many commands were accepted before
    something of a keyspace ended."""

    def __init__(self):
        self.sealed, self.out, self.flushed, self.journals = [], [], [], []
        # Whether a fault leaves open what of this stands on the disk: then nothing is known of it.
        self.is_unsure = False

    def flushed_end(self, id):
        return last_end(self.flushed, id)

    def sealed_end(self, id):
        return last_end(self.sealed, id)

    def has_memtable(self, commands, id):
        """Whether the active memtable of a keyspace holds something."""
        return are_kept(commands, max(self.sealed_end(id), self.flushed_end(id)), None, id)

    def is_out(self, id):
        return any(other == id for other, _ in self.out)

    def wants_flush(self, id):
        """Whether a flush begins: a memtable is sealed, and none is out."""
        return self.sealed_end(id) > self.flushed_end(id) and not self.is_out(id)

    def is_due(self, id):
        """Whether a flush takes effect once it is finished: its list goes on, and nothing has taken its memtables meanwhile."""
        return self.is_out(id) and last_end(self.out, id) > self.flushed_end(id)

    def drop_flush(self, id):
        """A flush that this list names is out no more; one that no list names stays out."""
        self.out = [one for one in self.out if one[0] != id or one[1] == 0]

    def finish_flush(self, id):
        self.flushed.append((id, last_end(self.out, id)))
        self.drop_flush(id)

    def lose_jobs(self):
        """No later list of calls names a flush that is out."""
        self.out = [(id, 0) for id, _ in self.out]

    def evict(self, commands, homes):
        """Removes the oldest sealed journals, up to the first that a keyspace which lives holds back."""
        while self.journals:
            if any(are_kept(commands, self.flushed_end(id), self.journals[0], id) for id in homes):
                break
            del self.journals[0]

    def open(self, commands, homes):
        """Behind an opening no flush is out, and what stands in memory is sealed behind each sealed journal."""
        self.sealed, self.out = [], []
        for id in homes:
            start = self.flushed_end(id)
            for end in self.journals:
                if are_kept(commands, start, end, id):
                    self.sealed.append((id, end))
                    start = end


@dataclass
class Merge:
    """A merge that is out: how many tables at level 0 it takes (it takes all at level 1), and how many it makes."""
    taken: int
    made: int
    is_lost: bool = False


@dataclass
class Counted:
    """The tables of a keyspace; `flushed` are those that the flush makes which began last."""
    level0: int = 0
    level1: int = 0
    flushed: int = 0
    merge: Merge = None


class Tables:
    """How many tables the keyspaces have, and which merges of them are out."""

    def __init__(self):
        self.counts = {}

    def of(self, id):
        return self.counts.setdefault(id, Counted())

    def wants_merge(self, id, least):
        """Whether a merge begins that wants so many tables at level 0."""
        counted = self.of(id)
        return counted.level0 + counted.level1 > 0 and counted.level0 >= least and counted.merge is None

    def is_merge_due(self, id):
        """Whether a merge is out that a list of calls names."""
        return self.of(id).merge is not None and not self.of(id).merge.is_lost

    def finish_merge(self, id):
        counted = self.of(id)
        if counted.merge is not None:
            counted.level0 = max(counted.level0 - counted.merge.taken, 0)
            counted.level1 = counted.merge.made
        counted.merge = None

    def drop_merge(self, id):
        if self.is_merge_due(id):
            self.of(id).merge = None

    def lose_jobs(self):
        for counted in self.counts.values():
            if counted.merge is not None:
                counted.merge.is_lost = True

    def open(self):
        for counted in self.counts.values():
            counted.merge = None


def made_by_flush(commands, start, end, id, watermark):
    """How many tables a flush makes, at a watermark, of what these commands left in memory: none of what a clear hides."""
    for at in range(start, min(end, watermark + 1, len(commands))):
        if commands[at] == ('clear', id):
            start = at
    return int(any(is_written(command, id) for command in commands[start:end]))


def made_by_merge(commands, end, id, watermark):
    """How many tables a merge makes, at a watermark, of all tables: they have what these commands left in memory before one
    of them, and what was ingested. All later changes are left, and of the others what is in the keyspace at the watermark."""
    stored = [(at, command) for at, command in enumerate(commands) if at < end or not is_kept(command, id)]
    later = [command for at, command in stored if at > watermark and command[0] in ('write', 'ingest')]
    if any(change[0] == id for command in later for change in command[1]):
        return 1
    homes = fold([command for at, command in stored if at <= watermark])
    return int(id in homes and bool(homes[id][1]))


def words_of(line):
    return ' '.join(map(str, line))


def is_begun(answer):
    return answer.startswith('job ')


@dataclass
class History:
    """What a database took since it was empty, and what its answers must be."""
    commands: list = field(default_factory=list)
    # How many of the commands were accepted, and how many no crash may take.
    accepted: int = 0
    safe: int = 0
    is_poisoned: bool = False
    # The commands that were tried at the fault, and how many of them were safe.
    at_fault: tuple = None
    tickets: Tickets = field(default_factory=Tickets)
    transactions: Transactions = field(default_factory=Transactions)
    work: Work = field(default_factory=Work)
    tables: Tables = field(default_factory=Tables)

    def homes(self):
        return fold(self.commands[:self.accepted])

    def shown(self):
        return shown(self.commands[:self.accepted])

    def command(self, line):
        """The command that a line is, where its keyspace lives or is to be made."""
        homes, word = self.homes(), line[0]
        if word in COMMITS:
            changes = self.transactions.changes(line[1])
            return ('write', changes) if changes and all(id in homes for id, _, _ in changes) else None
        if word == 'keyspace':
            return None if line[1] in [name for name, _ in homes.values()] else (word, line[1])
        if word in ('delete', 'clear'):
            return (word, int(line[1])) if int(line[1]) in homes else None
        items = {
            'insert': [line[1:4]],
            'remove': [line[1:3] + ['~']],
            'remove_weak': [line[1:3] + ['~']],
            'commit_batch': [line[at:at + 3] for at in range(2, len(line), 3)],
            'ingest': [[line[1]] + line[at:at + 2] for at in range(2, len(line), 2)] if word == 'ingest' else [],
        }.get(word, [])
        changes = [(int(id), key, None if value == '~' else value) for id, key, value in items]
        if not changes or any(id not in homes for id, _, _ in changes):
            return None
        return ('ingest' if word == 'ingest' else 'write', changes)

    # ---- what lines do beside their commands

    def made_of_memory(self, id, end):
        return made_by_flush(self.commands, self.work.flushed_end(id), end, id, self.tickets.watermark)

    def evict(self):
        self.work.evict(self.commands, self.homes())

    def note_rotation(self, id, answer):
        is_held = self.work.has_memtable(self.commands, id)
        if answer == 'true':
            self.tickets.gc(self.accepted)
            self.work.sealed.append((id, self.accepted))
        return is_held

    def note_flush(self, id, answer):
        is_wanted = self.work.wants_flush(id)
        if is_begun(answer):
            end = self.work.sealed_end(id)
            self.tables.of(id).flushed = self.made_of_memory(id, end)
            self.work.out.append((id, end))
        return is_wanted

    def note_flushed(self, id, answer):
        is_due = self.work.is_due(id) and id in self.homes()
        if answer == 'true':
            self.tables.of(id).level0 += self.tables.of(id).flushed
            self.work.finish_flush(id)
            self.evict()
        else:
            self.work.drop_flush(id)
        return is_due

    def note_merge(self, id, least, answer):
        is_wanted = self.tables.wants_merge(id, least)
        if is_begun(answer):
            made = made_by_merge(self.commands, self.work.flushed_end(id), id, self.tickets.watermark)
            self.tables.of(id).merge = Merge(self.tables.of(id).level0, made)
        return is_wanted

    def note_merged(self, id, answer):
        is_due = self.tables.is_merge_due(id) and id in self.homes()
        if answer == 'true':
            self.tables.finish_merge(id)
        else:
            self.tables.drop_merge(id)
        return is_due

    def note_ingestion(self, id):
        """What is in memory goes to a table, the items to one behind it, and journals are removed."""
        self.tables.of(id).level0 += self.made_of_memory(id, self.accepted) + 1
        self.work.flushed.append((id, self.accepted))
        self.evict()

    def note_job(self, line, answer):
        """Takes note of a line of a job; answers whether it must begin or end one."""
        word, id = line[0], int(line[1])
        return {
            'flush_begin': lambda: self.note_flush(id, answer),
            'flush_finish': lambda: self.note_flushed(id, answer),
            'merge_begin': lambda: self.note_merge(id, 0, answer),
            'merge_due_begin': lambda: self.note_merge(id, DUE, answer),
            'merge_finish': lambda: self.note_merged(id, answer),
        }[word]()

    def note_snapshot(self, line):
        """Takes note of a line of snapshots; answers the answer that is due."""
        word = line[0]
        if word == 'snapshot':
            return 'ticket %d' % self.tickets.open(self.accepted)
        if word == 'gc':
            return 'watermark %d' % self.tickets.gc(self.accepted)
        count = self.tickets.shown(line[1])
        if count is None:
            return 'error 20 SnapshotClosed'
        if word == 'clone_snapshot':
            return 'ticket %d' % self.tickets.open(count)
        self.tickets.shows[line[1]] = None
        return 'ok'

    def note_transaction(self, line, command):
        """Takes note of a line of transactions; answers the answers that are due."""
        word, name = line[0], line[1]
        if word in BEGINS:
            ticket = self.tickets.open(self.accepted)
            self.transactions.begin(name, word == 'begin_single', ticket, self.accepted, self.homes())
            return ['tx ' + name]
        if name not in self.transactions.open:
            return ['error 20 SnapshotClosed']
        if word in WITHIN:
            return [self.transactions.take(line)]
        return self.transactions.conflict(name) if word in COMMITS else ['ok']

    def end_transaction(self, name):
        """A transaction is open no more, nor is its snapshot."""
        one = self.transactions.open.pop(name, None)
        if one is not None:
            self.tickets.shows[one.ticket] = None

    def last_pairs(self, id):
        """What a keyspace holds, or held when it was deleted."""
        commands = self.commands[:self.accepted]
        if ('delete', id) in commands:
            commands = commands[:commands.index(('delete', id))]
        return fold(commands).get(id, ('', {}))[1]

    def note_read(self, line):
        """What a read of the present is answered."""
        pairs = self.last_pairs(int(line[1]))
        if line[0] == 'scan':
            return [pairs_text(pairs)]
        return ['value ' + pairs[line[2]] if line[2] in pairs else 'none']

    def note(self, line, answer, command):
        """Takes note of what a line does beside its command; answers the answers that it may get, where they are known."""
        word = line[0]
        if word in BEGINS + WITHIN + ENDS:
            return self.note_transaction(line, command)
        if word in ('get', 'scan'):
            return self.note_read(line)
        if word == 'gc':
            self.tickets.settle(answer, self.accepted)
        if word in ('snapshot', 'clone_snapshot', 'close_snapshot', 'gc'):
            return [self.note_snapshot(line)]
        if word in BEGINNINGS:
            is_so = self.note_job(line, answer)
            return None if self.work.is_unsure else ['job' if is_so else 'no job']
        if word in ENDINGS or word == 'rotate':
            is_so = self.note_rotation(int(line[1]), answer) if word == 'rotate' else self.note_job(line, answer)
            return ['true', 'false'] if self.work.is_unsure else ['true' if is_so else 'false']
        if word == 'keyspace':
            made = sum(other[0] == 'keyspace' for other in self.commands[:self.accepted])
            ids = [made + 1] if command else [id for id, (name, _) in self.homes().items() if name == line[1]]
            return ['keyspace %d' % ids[0]]
        if word == 'rotate_journal':
            self.work.journals.append(self.accepted)
        elif word == 'maintenance':
            self.evict()
        elif word == 'ingest' and command:
            self.note_ingestion(int(line[1]))
        return ['ok']

    # ---- answers

    def is_change(self, line, answer):
        """Whether a poisoned database refuses a line, though it is no command."""
        word = line[0]
        return word in ('rotate', 'rotate_journal', 'maintenance') + BEGINNINGS or word in ENDINGS and answer == 'true'

    def is_sync(self, line, answer, command):
        """Whether it syncs what was accepted before it. What a creation, a deletion or an ingestion itself does is safe, too."""
        word = line[0]
        if word in ('keyspace', 'delete', 'ingest'):
            return command is not None
        if word == 'commit_batch':
            return command is not None and line[1] in ('data', 'all')
        if word in COMMITS:
            return command is not None and self.transactions.open[line[1]].is_synced
        if word == 'persist':
            return line[1] != 'buffer'
        return word == 'rotate_journal' or word == 'flush_begin' and is_begun(answer)

    def hear(self, line, answer):
        """Takes what a line was answered."""
        self.hear_line(line, answer)
        if line[0] in ENDS:
            is_unsure = answer.startswith('error 17 ') and line[1] in self.transactions.open
            if is_unsure and not self.transactions.open[line[1]].is_unsure:
                self.transactions.open[line[1]].is_unsure = True
            else:
                self.end_transaction(line[1])

    def hear_line(self, line, answer):
        command = self.command(line)
        if answer.startswith('error '):
            return self.refuse(line, answer, command)
        if line[0] in COMMITS and answer == 'conflict':
            command = None
        told = 'job' if is_begun(answer) and answer.endswith(' of ' + line[1]) else answer
        due = self.note(line, answer, command)
        if due is not None and told not in due:
            raise Wrong('%s: %s, not %s' % (words_of(line), answer, ' or '.join(due)))
        if self.is_poisoned and (command or self.is_change(line, answer)):
            raise Wrong('%s is done by a poisoned database' % words_of(line))
        if command:
            self.commands.append(command)
            if line[0] in COMMITS:
                self.transactions.commit(line[1], len(self.commands) - 1)
        if not self.is_poisoned:
            self.accepted = len(self.commands)
        if self.is_sync(line, answer, command):
            self.safe = self.accepted

    def is_fault(self, answer):
        """Whether this tells the fault, or that no memory was found, for the first time."""
        return self.at_fault is None and answer.startswith(('error 1 Io', 'error 17 OutOfMemory'))

    def meet(self, answer):
        """A call met the fault, or found no memory."""
        if not self.is_fault(answer):
            raise Wrong('refused: ' + answer)
        self.at_fault = (list(self.commands), self.safe)

    def fault(self, answer, command):
        """A call met the fault, and a crash may leave its command or not; or it found no memory, and nothing was tried."""
        if answer.startswith('error 1 Io') and self.at_fault is None:
            self.is_poisoned = True
            if command:
                self.commands.append(command)
        self.meet(answer)

    def refuse(self, line, answer, command):
        """A call was refused, for the fault or since one before it was."""
        name, word = answer.split()[2], line[0]
        if name == 'Poisoned':
            is_due = self.is_poisoned
        elif name == 'SnapshotClosed' and word in WITHIN + ENDS:
            is_due = line[1] not in self.transactions.open or self.transactions.open[line[1]].is_unsure
        elif name == 'SnapshotClosed':
            is_due = word in ('clone_snapshot', 'close_snapshot') and self.tickets.shown(line[1]) is None
        elif name in ('UnknownKeyspace', 'KeyspaceDeleted'):
            is_due = command is None and self.at_fault is not None
        elif word in MERGES + WITHIN + ('get', 'scan'):
            # The lines that no fault poisons.
            if word in READS + UPDATES and line[1] in self.transactions.open:
                self.transactions.open[line[1]].mark(line, is_tried=True)
            return self.meet(answer)
        else:
            is_done_in_part = word in ('rotate_journal', 'maintenance', 'ingest') + ENDINGS
            self.work.is_unsure |= is_done_in_part and answer.startswith('error 1 Io')
            return self.fault(answer, command)
        if not is_due:
            raise Wrong('%s: %s' % (words_of(line), answer))

    def end_list(self):
        """No later list of calls names a job that is out."""
        self.work.lose_jobs()
        self.tables.lose_jobs()
        self.tickets.unsure += [one.ticket for one in self.transactions.open.values() if one.is_unsure]
        self.transactions.open.clear()

    # ---- openings, and what is looked at

    def opened(self, text):
        """A database was opened that shows this, all of which is safe from then on."""
        count = stands(text, self.commands, self.safe)
        del self.commands[count:]
        self.accepted = self.safe = count
        self.is_poisoned = False
        self.tickets, self.transactions = Tickets(), Transactions()
        self.tickets.gc(count)
        self.work.open(self.commands, self.homes())
        self.tables.open()

    def closed(self, answer):
        """Takes what a closing was answered."""
        if answer == 'ok':
            self.safe = self.accepted
        elif answer.startswith('error 8 Poisoned'):
            if not self.is_poisoned:
                raise Wrong('closing: ' + answer)
        else:
            self.fault(answer, None)

    def view(self, ticket, id):
        """What a page of all pairs of a keyspace is answered by a ticket, None where the keyspace isn't there."""
        if id not in self.homes():
            return None
        count = self.tickets.shown(ticket)
        if count is None:
            return 'error 20 SnapshotClosed'
        return pairs_text(fold(self.commands[:count]).get(id, ('', {}))[1])

    def count(self, what, id=None):
        """What `count WHAT ID` is answered, None where it isn't known."""
        if self.work.is_unsure or id is not None and id not in self.homes():
            return None
        if what == 'journals':
            return 'count %d' % (len(self.work.journals) + 1)
        counted = self.tables.of(id)
        return 'count %d' % (counted.level0 if what == 'level0' else counted.level0 + counted.level1)
