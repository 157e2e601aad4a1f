"""Transactions in the model of the sweeps (sim_model.py): what each sees, wrote, and conflicts with.

A line names its transaction by a name of its own, and so does the line that begins it: ['begin', NAME]."""
from dataclasses import dataclass, field

BEGINS = ('begin', 'begin_single')
COMMITS = ('commit', 'commit_single')
ENDS = COMMITS + ('rollback',)
READS = ('tx_get', 'tx_page')
UPDATES = ('tx_take', 'tx_fetch_update', 'tx_update_fetch')
WRITES = ('tx_insert', 'tx_remove', 'tx_remove_weak')
WITHIN = READS + UPDATES + WRITES + ('tx_durability',)


@dataclass
class Transaction:
    """One that is open: of how many commands its view is, and the pairs of the keyspaces then."""
    is_single: bool
    ticket: int
    shows: int
    homes: dict
    writes: dict = field(default_factory=dict)
    # The keys that it marked as written, though it may have left them as they were.
    touched: set = field(default_factory=set)
    # What it read, and what it may have read where the read found no memory; a key of None is the whole keyspace.
    reads: set = field(default_factory=set)
    reads_tried: set = field(default_factory=set)
    is_synced: bool = False
    # Whether a commit found no memory, which may have ended it.
    is_unsure: bool = False

    def pairs(self, id):
        """What it sees of a keyspace."""
        pairs = dict(self.homes.get(id, ('', {}))[1])
        for (other, key), value in self.writes.items():
            if other == id and value is None:
                pairs.pop(key, None)
            elif other == id:
                pairs[key] = value
        return pairs

    def mark(self, line, is_tried=False):
        """Takes note of what a line reads, or may have read."""
        if self.is_single or line[0] not in READS + UPDATES:
            return
        read = (int(line[2]), line[3] if line[0] != 'tx_page' else None)
        (self.reads_tried if is_tried else self.reads).add(read)
        if line[0] in UPDATES:
            self.touched.add(read)

    def write(self, line):
        """Takes note of what a line writes."""
        id, key = int(line[2]), line[3]
        if line[0] in WRITES:
            self.writes[id, key] = line[4] if line[0] == 'tx_insert' else None
            return
        new = None if line[0] == 'tx_take' or line[4] == '~' else line[4]
        if self.pairs(id).get(key) != new:
            self.writes[id, key] = new

    def due(self, line):
        """What a line within it is answered."""
        word = line[0]
        if word == 'tx_page':
            return ' '.join(['pairs'] + ['%s=%s' % pair for pair in sorted(self.pairs(int(line[2])).items())])
        if word in WRITES or word == 'tx_durability':
            return 'ok'
        value = self.pairs(int(line[2])).get(line[3])
        if word == 'tx_update_fetch':
            value = None if line[4] == '~' else line[4]
        return 'none' if value is None else 'value ' + value


class Transactions:
    """The transactions of a database since it was opened."""

    def __init__(self):
        self.open = {}
        # Of each that committed and marks what it wrote: its place among the commands, and the keys.
        self.committed = []

    def begin(self, name, is_single, ticket, commands, homes):
        self.open[name] = Transaction(is_single, ticket, commands, homes)

    def take(self, line):
        """A line within a transaction is done; answers its answer."""
        one = self.open[line[1]]
        due = one.due(line)
        if line[0] in WRITES + UPDATES:
            one.write(line)
        one.mark(line)
        if line[0] == 'tx_durability':
            one.is_synced = line[2] in ('data', 'all')
        return due

    def changes(self, name):
        """What the commit of a transaction writes."""
        one = self.open.get(name)
        return [(id, key, value) for (id, key), value in sorted(one.writes.items())] if one else []

    def meets(self, one, reads):
        return any(place >= one.shows and any(read in keys or read[1] is None and read[0] in {id for id, _ in keys} for read in reads)
                   for place, keys in self.committed)

    def conflict(self, name):
        """The answers that a commit may get: a conflict, none, or either where it isn't known what was read."""
        one = self.open[name]
        if one.is_single or not one.writes:
            return ['ok']
        if self.meets(one, one.reads):
            return ['conflict']
        return ['ok', 'conflict'] if self.meets(one, one.reads | one.reads_tried) else ['ok']

    def commit(self, name, place):
        """A transaction is the command at a place."""
        one = self.open[name]
        if not one.is_single:
            self.committed.append((place, set(one.writes) | one.touched))
