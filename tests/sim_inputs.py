"""Inputs for fjall-sim with a check of each answer, and plays of scripts, which the model judges."""
import subprocess
from pathlib import Path
from types import SimpleNamespace

from sim_model import BEGINNINGS, ENDINGS, History, Wrong, same, stands
from sim_transactions import BEGINS, ENDS, WITHIN

HERE = Path(__file__).resolve().parent
# The program, and what makes one of its requests for memory fail.
settings = SimpleNamespace(program='', failing='')
# A moment behind the last one, and more bytes than any file has.
END = 10 ** 9


class Input:
    """Lines for the program, and a check of each answer."""

    def __init__(self):
        self.lines, self.checks, self.asked = [], [], 0

    def say(self, line, check=lambda answer: None):
        self.lines.append(line)
        self.checks.append(check)

    def expect(self, line, due):
        self.say(line, lambda answer: same(answer, due))

    def twice(self, line, check, history):
        """Asks what reads: a first answer may be the fault, a second may not."""
        self.say(line, lambda answer: history.meet(answer) if history.is_fault(answer) else check(answer))
        self.say(line, check)

    def run(self):
        """Runs all lines, and checks their answers."""
        self.check(answers(self.lines))

    def check(self, told):
        """Checks the answers to the first lines."""
        for at, answer in enumerate(told):
            self.check_at(at, answer)

    def check_at(self, at, answer):
        """Checks the answer to one line."""
        try:
            self.checks[at](answer)
        except Wrong as wrong:
            raise Wrong('at `%s`: %s\n  %s' % (self.lines[at], wrong, self.shortened(at))) from None

    def shortened(self, at):
        """The input up to a line: from the last new disk on, and of the images of a crash the last one alone."""
        lines = self.lines[:at + 1]
        if 'new' in lines:
            lines = lines[len(lines) - 1 - lines[::-1].index('new'):]
        images = [place for place, line in enumerate(lines) if line.startswith('image ')]
        if images:
            lines = lines[:images[0]] + lines[images[-1]:]
        return 'input: ' + '; '.join(lines)

    def images(self, tape, moment, ways, commands, safe):
        """Crashes a moment in these ways, and opens what is left; answers how many they are."""
        for way in ways:
            self.expect('image %d %d %s' % (tape, moment, way), 'ok')
            self.expect('open', 'ok')
            self.say('show', lambda answer: stands(answer, commands, safe))
        return len(ways)

    def unchecked(self):
        """The same lines, whose answers were checked before."""
        again = Input()
        again.lines, again.asked = list(self.lines), self.asked
        again.checks = [lambda answer: None] * len(again.lines)
        return again


def number(answer):
    """The number that an answer ends with."""
    return int(answer.split()[-1])


def answers(lines):
    """What the program answers these lines."""
    text = '\n'.join(lines) + '\n'
    told = subprocess.run([settings.program], input=text.encode(), stdout=subprocess.PIPE)
    found = told.stdout.decode().split('\n')[:-1]
    if told.returncode != 0 or len(found) != len(lines):
        raise Wrong('status %d, %d answers to %d lines' % (told.returncode, len(found), len(lines)))
    return found


def asked(lines, more):
    """What these lines are answered behind others."""
    return answers(lines + more)[len(lines):]


# ---- scripts

def script_of(name):
    """The lines of a script, and the counts that its head names: of its commands, and of the calls that it makes of the disk."""
    text = (HERE / 'sweeps' / (name + '.script')).read_text().splitlines()
    head = text[0].split()
    return [line.split() for line in text if not line.startswith('#')], (int(head[1]), int(head[4]))


OPENS = ('snapshot', 'clone_snapshot') + BEGINS


def lists_of(script):
    """The lines in lists: those from the beginning of a job or a transaction up to its end are one."""
    found, begun = [[]], 0
    for line in script:
        found[-1].append(line)
        begun = max(begun + (line[0] in BEGINNINGS + BEGINS) - (line[0] in ENDINGS + ENDS), 0)
        if begun == 0:
            found.append([])
    return [lines for lines in found if lines]


class Play:
    """A database that is opened over the disk as it stands, and takes a script; what each list left is looked at."""

    def __init__(self, into, script):
        # `numbers` are those of the lines that open snapshots and begin transactions, `snapshots` those of them that open snapshots,
        # `tickets` the ids that these were answered.
        self.into, self.history, self.made = into, History(), 0
        self.numbers, self.snapshots, self.tickets = [], [], {}
        self.open()
        for at, lines in enumerate(lists_of(script)):
            self.take(at, lines)
        into.expect('drop', 'ok')

    def take(self, at, lines):
        """Takes a list of the script."""
        if lines == [['reopen']]:
            self.into.say('close', self.history.closed)
            self.open()
        else:
            for line in lines:
                self.ask(line)
            self.end_list()
            self.look()

    def open(self):
        """Opens it, with a second try where the first meets the fault."""
        history, first = self.history, []
        self.numbers, self.snapshots = [], []

        def tried(answer):
            self.tickets.clear()
            first.append(answer)
            if answer != 'ok':
                history.fault(answer, None)

        def again(answer):
            # Where there was no memory for the first answer alone, the database is open.
            if not (answer == 'open' and first[0].startswith('error 17 ')):
                same(answer, 'open' if first[0] == 'ok' else 'ok')
        self.into.say('open', tried)
        self.into.say('open', again)
        self.into.twice('show', history.opened, history)

    def is_counted(self):
        """Whether the line that comes next gets its number."""
        return True

    def keep_number(self):
        """Keeps the number of the next line that a script names by its place among such lines."""
        self.numbers.append(self.into.asked)

    def heard(self, line):
        """A line as the model hears it: a transaction has a name, and a snapshot is that of its ticket."""
        word = line[0]
        if word in BEGINS:
            return [word, str(self.into.asked)]
        if word in WITHIN + ENDS:
            return [word, str(self.numbers[int(line[1])])] + line[2:]
        return line

    def ask(self, line):
        """Asks for what a line says; a snapshot or a transaction goes by its number among all that the input opens."""
        word, number = line[0], None
        if word in ('clone_snapshot', 'close_snapshot'):
            number = self.numbers[int(line[1])]
        if word in OPENS:
            self.into.asked += self.is_counted()
            self.keep_number()
            self.snapshots += [self.into.asked] * (word not in BEGINS)
        self.made += word == 'keyspace'
        opens, heard = self.into.asked, self.heard(line)

        def hear(answer):
            self.history.hear(heard if number is None else [word, self.tickets.get(number)], answer)
            if answer.startswith('ticket '):
                self.tickets[opens] = int(answer.split()[1])
        words = heard if number is None else [word, str(number)]
        if word == 'snapshot':
            words = ['snapshot', 'id']
        elif word in BEGINS:
            words = line
        self.into.say(' '.join(words), hear)

    def end_list(self):
        self.into.say('next', lambda answer: (self.history.end_list(), same(answer, 'ok')))

    def look(self):
        """Looks at what a list left: keyspaces, pairs, journals and tables, and what each snapshot shows."""
        into, history = self.into, self.history
        into.twice('show', lambda answer: same(answer, history.shown()), history)
        self.count('journals')
        for id in range(1, self.made + 1):
            self.count('tables', id)
            self.count('level0', id)
            for number in self.snapshots:
                self.view(number, id)
        into.expect('get_at %d 1 6b' % END, 'error 20 SnapshotClosed')

    def count(self, *what):
        self.into.say('count ' + ' '.join(map(str, what)), lambda answer: same(answer, self.history.count(*what) or answer))

    def view(self, number, id):
        def check(answer):
            same(answer, self.history.view(self.tickets.get(number), id) or answer)
        self.into.twice('page_at %d %d * * 99' % (number, id), check, self.history)


def record(into, script, fault=None):
    """A play over an empty disk, of which a record is kept; a call of the disk fails where one is named, with its part."""
    into.expect('new', 'ok')
    into.expect('record', 'ok')
    if fault:
        into.expect('fail %d %s' % fault, 'ok')
    return Play(into, script)
