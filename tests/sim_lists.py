"""Lists of calls with transactions over fjall-sim, and a model of them: one keyspace, whose commands give keys values."""
from pathlib import Path

from sim_inputs import END, HERE, Input, answers, number
from sim_model import Wrong, pairs_text, same

KEPT = [0, 1, 20, 48, 49, 50, 71, 98, 150, 200, 250, END]
LENGTHS = [keep for keep in range(300) if keep < 20 or keep % 7 == 0] + [END]


def writes_of(lines, told, name):
    """What a transaction wrote by these lines, which were answered so."""
    wrote = {}
    for line, answer in zip(lines, told):
        word = line[0]
        if not word.startswith('tx_') or line[1] != name:
            continue
        if word == 'tx_insert' and answer == 'ok':
            wrote[line[3]] = line[4]
        elif word == 'tx_remove' and answer == 'ok' or word == 'tx_take' and answer.startswith('value '):
            wrote[line[3]] = None
        elif word in ('tx_fetch_update', 'tx_update_fetch') and (answer == 'none' or answer.startswith('value ')):
            wrote[line[3]] = None if line[4] == '~' else line[4]
    return wrote


class Tried:
    """The commands of one keyspace that a list tried, each with what it gives keys, and how many were accepted and are safe."""

    def __init__(self):
        self.commands, self.accepted, self.safe, self.has_failed, self.is_poisoned = [], 0, 0, False, False

    def command(self, line, before, told):
        word = line[0]
        if word in ('commit', 'commit_single'):
            return writes_of(before, told, line[1]) or None
        if word in ('insert', 'remove'):
            return {line[2]: line[3] if word == 'insert' else None}
        return {} if word == 'keyspace' else None

    def is_sync(self, line, before):
        if line[0].startswith('commit'):
            return ['tx_durability', line[1], 'all'] in before
        return line[0] in ('keyspace', 'flush_begin', 'persist')

    def hear(self, line, answer, due, before, told):
        """Takes what a line was answered that is answered `due` where no call of the disk fails."""
        command = self.command(line, before, told)
        is_change = command is not None or line[0] in ('rotate', 'flush_begin', 'flush_finish', 'persist')
        is_due = answer == due or due == 'job' and answer.startswith('job ')
        if answer.startswith('error 1 Io'):
            if self.has_failed:
                raise Wrong('a second fault')
            self.has_failed, self.is_poisoned = True, is_change
            self.commands += [command] if command is not None else []
        elif self.is_poisoned:
            is_refused = answer.startswith('error 8 Poisoned') or answer.startswith('error 19 ') and self.accepted == 0
            is_refused = is_refused or answer in ('conflict', 'false') and (is_due or line[0] == 'flush_finish')
            if is_change and not is_refused:
                raise Wrong('done by a poisoned database: ' + answer)
        else:
            if answer not in ('conflict', 'false'):
                self.commands += [command] if command is not None else []
                self.accepted = len(self.commands)
                self.safe = self.accepted if self.is_sync(line, before) else self.safe
            if not is_due:
                raise Wrong('%s, not %s' % (answer, due))

    def stands(self, text, least):
        """A database shows a beginning of the commands, so many of them at least."""
        count = int(text.split(';')[0].split()[1]) if text.startswith('shows ') else -1
        if not least <= count <= len(self.commands):
            raise Wrong('%d of %d commands, %d at least: %s' % (count, len(self.commands), least, text))
        pairs = {}
        for command in self.commands[:count]:
            pairs.update(command)
        left = pairs_text({key: value for key, value in pairs.items() if value is not None})
        same(text, 'shows %d' % count + ('; 1 6974656d73 ' + left if count else ''))


def transactions_script():
    """The lines of a list of calls with transactions of both kinds, and their answers."""
    file = HERE / 'sim/transactions/a_script_of_both_kinds'
    lines, dues = (Path(str(file) + end).read_text().splitlines()[1:] for end in ('.in', '.out'))
    return [line.split() for line in lines], dues


def played_list(into, count, fault, keep):
    """A beginning of that list over an empty disk, of which one call fails, and a crash where each file keeps so many of its
    unsynced bytes."""
    lines, dues = transactions_script()
    tried, told = Tried(), []
    into.expect('new', 'ok')
    into.expect('fail %d %s' % fault, 'ok')
    into.say('open', told.append)
    # Snapshots and transactions get the next numbers of the input.
    first = into.asked
    for at, line in enumerate(lines[:count]):
        due = dues[at]
        if due.startswith(('tx ', 'snapshot ')):
            into.asked += 1
            due = '%s %d' % (due.split()[0], int(due.split()[1]) + first)

        def hear(answer, at=at, line=line, due=due):
            if told[0] == 'ok':
                tried.hear(line, answer, due, lines[:at], told[1:])
            told.append(answer)
        into.say(' '.join(line), hear)

    def show(answer):
        if told[0] == 'ok':
            tried.stands(answer, tried.accepted)
            same(answer.split(';')[0], 'shows %d' % tried.accepted)
        elif not told[0].startswith('error 1 Io'):
            raise Wrong('opening: ' + told[0])
    into.say('show', show)
    into.expect('faults', 'count %d' % (0 < fault[0] <= CALLS_OF_LIST))
    into.expect('drop', 'ok')
    into.expect('lose %d' % keep, 'ok')
    into.expect('open', 'ok')
    into.say('show', lambda answer: tried.stands(answer, tried.accepted if keep == END else tried.safe))


# The list makes so many calls of the disk.
CALLS_OF_LIST = 57


def list_faults(call):
    """A call of the list's disk fails; of an append none, 1, 20 and all of its bytes go out. Behind it files keep each length."""
    into, parts = Input(), ('0', '1', '20', 'all')
    for part in parts:
        for keep in LENGTHS:
            played_list(into, len(transactions_script()[0]), (call, part), keep)
    into.run()
    return len(parts) * len(LENGTHS)


def list_counts():
    """The list makes so many calls of the disk."""
    lines, _ = transactions_script()
    words = ['new', 'record', 'open'] + [' '.join(line) for line in lines] + ['moments']
    same(answers(words)[-1], 'count %d' % (2 * CALLS_OF_LIST))
    return 1


def list_beginnings(count):
    """A beginning of the list is crashed."""
    into = Input()
    for keep in KEPT:
        played_list(into, count, (0, '0'), keep)
    into.run()
    return len(KEPT)


def pairs_of_transactions(count):
    """Of each of so many pairs of transactions, of which each writes what the other read, one commits, and few commits are
    kept."""
    into = Input()
    into.expect('open', 'ok')
    into.expect('keyspace items', 'keyspace 1')
    for pair in range(count):
        one, other = 2 * pair + 1, 2 * pair + 2
        into.expect('begin', 'tx %d' % one)
        into.expect('begin', 'tx %d' % other)
        into.expect('tx_get %d 1 01' % one, 'none')
        into.expect('tx_get %d 1 02' % other, 'value 07' if pair else 'none')
        into.expect('tx_insert %d 1 02 07' % one, 'ok')
        into.expect('tx_insert %d 1 01 07' % other, 'ok')
        into.expect('tx_durability %d all' % one, 'ok')
        into.expect('tx_durability %d all' % other, 'ok')
        into.expect('commit %d' % one, 'ok')
        into.expect('commit %d' % other, 'conflict')
        into.say('count kept', lambda answer: None if 0 < number(answer) <= 9_999 else same(answer, 'at most 9999'))
    into.run()
    return count
