"""Damaged folders (folder_damage.py), and what an opening by fjall-sim must make of each: what folder_reader.py makes of its bytes."""
import random
from collections import Counter

from folder_damage import Damage
from folder_reader import ANY, Refused, read
from sim_inputs import Input, answers
from sim_model import Wrong, pairs_text, same

# What is done to get each folder, which no engine then has open.
RICH = ['new', 'open', 'keyspace apples l0 2 tables 300', 'keyspace pears', 'keyspace plums manual', 'insert_many 1 30', 'insert 2 61 6161', 'rotate 1',
        'flush 1', 'ingest_many 2 300', 'clear 1', 'insert 1 62 63', 'rotate 1', 'flush 1', 'rotate_journal', 'remove 2 0001',
        'commit_batch none 1 63 64 2 64 65 3 66 67', 'merge 2', 'delete 3', 'keyspace figs', 'insert 4 6b 76', 'rotate_journal', 'insert 1 7a 7a7a',
        'remove_weak 2 0002', 'clear 4', 'insert 4 6c 77', 'insert 2 6d -']
FOLDERS = [
    RICH + ['close'],
    RICH + ['insert 1 6e 6e', 'lose 130'],
    RICH + ['merge 1', 'rotate 2', 'flush 2', 'maintenance', 'close', 'put 2.jnl 01746f726e', 'put keyspaces/1/current 0000', 'put keyspaces/2/7.table 78'],
    ['new', 'open', 'keyspace items', 'insert 1 61 62', 'close'],
    ['new', 'open', 'keyspace items', 'insert 1 61 62', 'rotate 1', 'flush 1', 'insert 1 63 64', 'close'],
    ['new', 'open', 'keyspace a', 'delete 1', 'close'],
    ['new', 'open', 'close'],
    ['new', 'put version 464a', 'put 10.jnl -', 'put 9.jnl 01746f726e', 'folder keyspaces', 'folder keyspaces/0'],
]


def listed(lines, folder):
    return answers(lines + ['list ' + (folder or '/')])[-1].split()[1:]


def files_of(lines):
    """The files that lines leave, and None for each folder."""
    found, folders = {}, ['']
    for folder in folders:
        for name in listed(lines, folder):
            if name.endswith('/'):
                folders.append(name[:-1])
                found[name[:-1]] = None
            else:
                text = answers(lines + ['file ' + name])[-1].split()[1]
                found[name] = bytes.fromhex(text.removeprefix('-'))
    return found


def put(into, files):
    """Puts a folder on an empty disk."""
    into.expect('new', 'ok')
    for name, text in sorted(files.items(), key=lambda one: one[0].count('/')):
        into.expect('folder ' + name if text is None else 'put %s %s' % (name, text.hex() or '-'), 'ok')


def is_one_of(dues):
    def is_due(answer):
        if answer not in dues:
            raise Wrong('%s, not %s' % (answer, ' or '.join(dues)))
    return is_due


def refused(into, dues):
    """It is refused twice, and stays as it was."""
    digests = []
    into.say('digest', digests.append)
    for _ in range(2):
        into.say('open', is_one_of(dues))
    into.say('digest', lambda answer: same(answer, digests[0]))


def is_shown(pairs):
    def is_due(answer):
        if pairs is ANY and answer.split()[0] in ('pairs', 'error') or isinstance(pairs, str) and answer == pairs:
            return
        same(answer, pairs if isinstance(pairs, str) else pairs_text({key.hex(): value.hex() or '-' for key, value in pairs.items()}))
    return is_due


def opened(into, number, found):
    """It opens and shows just this, twice, and takes a write."""
    for _ in range(2):
        into.expect('open', 'ok')
        into.expect('count visible', 'count %d' % number)
        into.expect('names', ' '.join(['names'] + sorted(name.hex() for name, _ in found.values())))
        for id, (_, pairs) in sorted(found.items()):
            into.say('scan %d' % id, is_shown(pairs))
        into.expect('close', 'ok')
    into.expect('open', 'ok')
    for id in found if number < 1 << 63 else ():
        into.expect('insert %d 6e6577 31' % id, 'ok')
        into.expect('get %d 6e6577' % id, 'value 31')
    into.expect('close', 'ok')


def sound():
    """The files of the folders that are damaged."""
    return [files_of(lines) for lines in FOLDERS]


def damaged(base, seed, at, ways=(1, 1, 1, 2, 3)):
    """The folder of this number, damaged in one of so many ways, and how."""
    chance = random.Random('%s %d' % (seed, at))
    damage = Damage(chance, chance.choice(base), base)
    return damage.damage(chance.choice(ways)), damage.told


def tried(part):
    """Tries some folders: how many were refused, and with what, and what is wrong."""
    into, counts, ends = Input(), Counter(), []
    for files, ways in part:
        put(into, files)
        counts[expect(into, files)] += 1
        ends.append((len(into.lines), ways))
    try:
        told = answers(into.lines)
    except Wrong as wrong:
        return counts, '%s; input: %s' % (wrong, '; '.join(into.lines))
    for at, answer in enumerate(told):
        try:
            into.checks[at](answer)
        except Wrong as wrong:
            ways = next(ways for end, ways in ends if at < end)
            return counts, 'damaged by %s, at `%s`: %s\n  %s' % (', '.join(ways), into.lines[at], str(wrong)[:400], into.shortened(at))
    return counts, None


def expect(into, files):
    """Asks what becomes of a folder; answers a word for what is due."""
    try:
        number, found = read(files)
    except Refused as cause:
        refused(into, cause.answers)
        return cause.answers[0]
    opened(into, number, found)
    return 'opened without a promise of some keyspace' if any(pairs is ANY for _, pairs in found.values()) else 'opened'
