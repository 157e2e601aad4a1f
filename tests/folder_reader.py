"""What an opening makes of a folder's bytes, read anew from docs/FORMATS.md alone: why it is refused, or what each keyspace shows.

A folder is a map from names to bytes, with None for a folder. Where the formats promise nothing (tables that no engine wrote, but with
right checks) a keyspace's pairs are ANY."""
import hashlib
import struct

MARK = b'FJL\x03'
MOST = 1 << 63
ANY = 'any'
OPTIONS = ['compaction_strategy', 'data_block_compression_policy', 'data_block_hash_ratio_policy', 'data_block_restart_interval_policy',
           'data_block_size_policy', 'expect_point_read_hits', 'filter_block_partitioning_policy', 'filter_block_pinning_policy',
           'filter_policy', 'index_block_compression_policy', 'index_block_partitioning_policy', 'index_block_pinning_policy',
           'index_block_restart_interval_policy', 'level_count', 'manual_journal_persist', 'max_memtable_size', 'version',
           'leveled_l0_threshold', 'leveled_target_size', 'leveled_level_ratio_policy']
UNRECOVERABLE = 'error 11 Unrecoverable'
RECORD_DAMAGED, TABLE_DAMAGED = 'error 2 Storage(RecordDamaged)', 'error 2 Storage(TableDamaged)'
OPTION_MISSING, OPTION_INVALID = 'error 2 Storage(OptionMissing)', 'error 2 Storage(OptionInvalid)'


class Refused(Exception):
    """An opening is refused with one of these."""

    def __init__(self, *answers):
        super().__init__(answers)
        self.answers = answers


class Broken(Exception):
    """Bytes aren't what they should be."""


def check(text):
    return hashlib.sha256(text).digest()[:8]


def is_number(text):
    return text.isascii() and text.isdigit() and (text == '0' or text[0] != '0') and int(text) < 1 << 64


class Bytes:
    """Bytes that are read from the front."""

    def __init__(self, text, at=0):
        self.text, self.at = text, at

    def take(self, count):
        if len(self.text) - self.at < count:
            raise Broken('too few bytes')
        self.at += count
        return self.text[self.at - count:self.at]

    def number(self, count):
        return int.from_bytes(self.take(count), 'little')

    def left(self):
        return len(self.text) - self.at


# ---- journals

def entry(given):
    """The next entry of a journal: ('start', COUNT, NUMBER), ('item', ID, TYPE, KEY, VALUE), ('clear', ID) or ('end', CHECK)."""
    tag = given.number(1)
    if tag == 1:
        return 'start', given.number(4), given.number(8)
    if tag == 2:
        kind, compression = given.number(1), given.number(1)
        id, key, value, stored = given.number(8), given.number(2), given.number(4), given.number(4)
        if kind not in (0, 1, 2, 4) or compression or key == 0 or stored != value:
            raise Broken('no item')
        return 'item', id, kind, given.take(key), given.take(value)
    if tag == 3:
        found = given.take(8)
        if given.take(4) != MARK:
            raise Broken('no trailer')
        return 'end', found
    if tag == 4:
        return 'clear', given.number(8)
    raise Broken('no tag')


def batch(given):
    """The next batch: its number and its entries; or a word for its tail."""
    begin = given.at
    first = entry(given)
    if first[0] != 'start':
        return 'Torn'
    entries = []
    while True:
        end = given.at
        one = entry(given)
        if one[0] == 'start':
            return 'Torn'
        if one[0] == 'end':
            if len(entries) < first[1]:
                return 'InsufficientLength'
            return (first[2], entries) if one[1] == check(given.text[begin:end]) else 'ChecksumMismatch'
        if len(entries) == first[1]:
            return 'TooManyItems'
        entries.append(one)


def journal(text):
    """The batches of a journal, and its tail: Clean, Torn, or a damage."""
    given, batches = Bytes(text), []
    while given.left():
        try:
            found = batch(given)
        except Broken:
            return batches, 'Torn'
        if isinstance(found, str):
            return batches, found
        batches.append(found)
    return batches, 'Clean'


# ---- records

def record(body):
    """A record's fields, where its body is one."""
    given = Bytes(body)
    if given.number(1) != 1:
        raise Broken('another format')
    numbers = []
    for _ in range(2):
        flag, number = given.number(1), given.number(8)
        if flag > 1 or not flag and number or number >= MOST:
            raise Broken('a number')
        numbers.append(number if flag else None)
    next_table, next_keyspace = given.number(8), given.number(8)
    tables = [(given.number(8), given.number(1), given.number(8), given.number(8)) for _ in range(counted(given, 25))]
    clears = [given.number(8) for _ in range(counted(given, 8))]
    ids = [table[0] for table in tables]
    if given.left() or len(set(ids)) < len(ids) or any(id >= next_table for id in ids) or any(table[1] > 1 for table in tables):
        raise Broken('tables')
    if any(clear >= MOST for clear in clears) or any(one >= other for one, other in zip(clears, clears[1:])):
        raise Broken('clears')
    return {'persisted': numbers[0], 'highest': numbers[1], 'next_table': next_table, 'next_keyspace': next_keyspace, 'tables': tables,
            'clears': clears, 'body': body}


def counted(given, size):
    """A count of fields, for all of which there are bytes."""
    count = given.number(4)
    if count * size > given.left():
        raise Broken('too few fields')
    return count


def records(text):
    """The whole records of a `current`."""
    given, found = Bytes(text or b''), []
    while given.left() >= 4:
        begin = given.at
        try:
            body = given.take(given.number(4))
            if given.take(8) != check(given.text[begin:given.at - 8]):
                break
        except Broken:
            break
        try:
            found.append(record(body))
        except Broken:
            raise Refused(RECORD_DAMAGED) from None
    return found


# ---- tables

def framed(text, at, end):
    """The payload that stands framed just between these places."""
    given = Bytes(text[:end], at)
    payload = given.take(given.number(8))
    if given.take(8) != check(text[at:given.at - 8]) or given.left():
        raise Broken('no frame')
    return payload


def index(text, count):
    """The handles of a table's blocks: (BEGIN, END, FIRST KEY)."""
    given = Bytes(text, len(text) - 36)
    if given.at < 0 or given.take(4) != b'FJT\x01':
        raise Broken('no footer')
    begin, length, entries = given.number(8), given.number(8), given.number(8)
    if given.take(8) != check(text[-36:-8]) or begin + length + 36 != len(text) or entries != count:
        raise Broken('footer')
    given, handles, place = Bytes(framed(text, begin, begin + length)), [], 0
    while given.left():
        start, size = given.number(8), given.number(8)
        key = given.take(given.number(2))
        if start != place or not key or handles and key < handles[-1][2]:
            raise Broken('handle')
        place += size
        handles.append((start, place, key))
    if place != begin or not handles or count == 0:
        raise Broken('index')
    return handles


def block(text, handle):
    """The entries of a block: (KEY, NUMBER, VALUE), with None for a tombstone."""
    given, found = Bytes(framed(text, *handle[:2])), []
    while given.left():
        key, kind, number, value = given.number(2), given.number(1), given.number(8), given.number(4)
        if kind > 1 or key == 0 or kind == 1 and value:
            raise Broken('entry')
        found.append((given.take(key), number, given.take(value) if kind == 0 else None))
    if not found or found[0][0] != handle[2]:
        raise Broken('first key')
    return found


def are_in_order(entries):
    places = [(key, -number) for key, number, _ in entries]
    return all(one < other for one, other in zip(places, places[1:]))


def table(text, length, count):
    """All entries of a table, read whole."""
    if text is None or len(text) != length:
        raise Broken('no table')
    entries, handles = [], index(text, count)
    for at, handle in enumerate(handles):
        found = block(text, handle)
        if at + 1 < len(handles) and handle[1] - handle[0] - 16 < 4096 or not is_closed(found):
            raise Broken('closed early or late')
        entries += found
    if len(entries) != count or not are_in_order(entries):
        raise Broken('order or count')
    return entries


def is_closed(entries):
    """Whether a block ends with the first entry by which it is full."""
    sizes = [15 + len(key) + len(value or b'') for key, _, value in entries]
    return sum(sizes[:-1]) < 4096


# ---- options

def is_policy(text, size, is_filter=False):
    if not text or text[0] == 0:
        return False
    if not is_filter:
        return len(text) > text[0] * size
    given = Bytes(text, 1)
    try:
        for _ in range(text[0]):
            if given.number(1) == 1:
                if given.number(1) > 1:
                    return False
                given.take(4)
            elif given.text[given.at - 1] != 0:
                return False
    except Broken:
        return False
    return True


def is_option(name, text):
    """Whether an opening takes a stored option."""
    if name == 'compaction_strategy':
        return text == b'LeveledCompaction'
    if name in ('level_count', 'version', 'expect_point_read_hits', 'manual_journal_persist'):
        return True
    if name == 'leveled_l0_threshold':
        return len(text) == 1 and text[0] > 0
    if name == 'leveled_target_size':
        return len(text) == 8 and any(text)
    if name == 'max_memtable_size':
        return len(text) == 8
    if name == 'filter_policy':
        return is_policy(text, 0, True)
    if name.endswith('compression_policy'):
        return is_policy(text, 1) and not any(text[1:1 + text[0]])
    wide = name in ('data_block_hash_ratio_policy', 'data_block_size_policy', 'leveled_level_ratio_policy')
    return is_policy(text, 4 if wide else 1)


def keyspaces(entries, next_keyspace):
    """The keyspaces that the pairs of tree 0 name: id -> (NAME, NUMBER)."""
    found = {}
    if next_keyspace == 0:
        raise Refused(OPTION_MISSING, OPTION_INVALID)
    pairs = {key: (number, value) for key, number, value in entries}
    ids = sorted({int.from_bytes(key[1:9], 'big') for key in pairs if len(key) >= 9 and key[:1] in (b'n', b'c')})
    due = set()
    for id in ids:
        spelled = id.to_bytes(8, 'big')
        keys = [b'n' + spelled] + [b'c' + spelled + name.encode() for name in OPTIONS]
        due.update(keys)
        if any(key not in pairs for key in keys):
            raise Refused(OPTION_MISSING, OPTION_INVALID)
        name, numbers = pairs[keys[0]][1], {pairs[key][0] for key in keys}
        valid = all(is_option(option, pairs[key][1]) for option, key in zip(OPTIONS, keys[1:]))
        if not 1 <= len(name) <= 255 or len(numbers) > 1 or not valid or id == 0 or id >= next_keyspace:
            raise Refused(OPTION_MISSING, OPTION_INVALID)
        found[id] = (name, numbers.pop())
    if set(pairs) - due or len(entries) > len(pairs) or len({name for name, _ in found.values()}) < len(found):
        raise Refused(OPTION_MISSING, OPTION_INVALID)
    return found


# ---- a folder

def names_in(folder, files):
    """The names right below a folder, with whether each is a folder."""
    front = folder + '/' if folder else ''
    return {name[len(front):]: text is None for name, text in files.items() if name.startswith(front) and '/' not in name[len(front):]
            and name != folder}


def read_marker(files):
    """Whether the folder's creation is finished."""
    text = files.get('version')
    if text is None or len(text) < 4 and MARK.startswith(text):
        return False
    if text[:3] != MARK[:3] or text[3] not in (1, 2, 3):
        raise Refused('error 4 InvalidVersion(None)')
    if text[3] != 3:
        raise Refused('error 4 InvalidVersion(Some(V%d))' % text[3])
    return True


def journal_ids(files):
    ids = []
    for name in names_in('', files):
        front, dot, extension = name.rpartition('.')
        if front and dot and extension.lower() == 'jnl':
            if extension != 'jnl' or not is_number(front):
                raise Refused('error 3 JournalRecovery(InvalidFileName)')
            ids.append(int(front))
    return sorted(ids)


def read_journals(ids, files):
    """All batches of all journals."""
    found, last = [], -1
    for id in ids:
        batches, tail = journal(files['%d.jnl' % id])
        for number, entries in batches:
            if number <= last or number >= MOST:
                raise Refused(UNRECOVERABLE)
            if any(one[0] == 'item' and one[2] == 4 for one in entries):
                raise Refused('error 7 InvalidTag(("ValueType", 4))')
            last = number
            found.append((number, entries))
        if tail == 'Torn' and id != ids[-1]:
            raise Refused(UNRECOVERABLE)
        if tail not in ('Torn', 'Clean'):
            raise Refused('error 3 JournalRecovery(%s)' % tail)
    return found


def look_at_names(files):
    if any(is_folder and not is_number(name) for name, is_folder in names_in('keyspaces', files).items()):
        raise Refused(UNRECOVERABLE)


FIRST = struct.pack('<BBQBQQQII', 1, 0, 0, 0, 0, 1, 1, 0, 0)


def read_unfinished(ids, files):
    """A folder whose creation is unfinished: it shows nothing, or is refused."""
    if any(journal(files['%d.jnl' % id])[0] for id in ids):
        raise Refused(UNRECOVERABLE)
    look_at_names(files)
    found = records(files.get('keyspaces/0/current'))
    if len(found) > 1 or found and found[0]['body'] != FIRST:
        raise Refused(UNRECOVERABLE)


def read_catalog(files):
    """Tree 0: its last record, and the keyspaces that live."""
    if 'keyspaces/0' not in files:
        raise Refused(UNRECOVERABLE)
    found = records(files.get('keyspaces/0/current'))
    if not found or len(found[-1]['tables']) > 1 or any(one[1] == 0 for one in found[-1]['tables']) or found[-1]['clears']:
        raise Refused(RECORD_DAMAGED)
    last, entries = found[-1], []
    for id, _, length, count in last['tables']:
        try:
            entries = table(files.get('keyspaces/0/%d.table' % id), length, count)
        except Broken:
            raise Refused(TABLE_DAMAGED) from None
        if any(value is None for _, _, value in entries):
            raise Refused(TABLE_DAMAGED)
    living = keyspaces(entries, last['next_keyspace'])
    most = max(last['persisted'] if last['persisted'] is not None else -1, last['highest'] if last['highest'] is not None else -1)
    if any(number > most for _, number in living.values()):
        raise Refused(TABLE_DAMAGED)
    return last, living


def read_home(id, files):
    """A keyspace's last record, once its tables are looked at."""
    if files.get('keyspaces/%d' % id, b'') is not None:
        raise Refused(UNRECOVERABLE)
    found = records(files.get('keyspaces/%d/current' % id))
    if not found:
        raise Refused(RECORD_DAMAGED)
    last = found[-1]
    for number, _, length, count in last['tables']:
        text = files.get('keyspaces/%d/%d.table' % (id, number))
        try:
            if text is None or len(text) != length:
                raise Broken('no table')
            index(text, count)
        except Broken:
            raise Refused(TABLE_DAMAGED) from None
    if any(last['persisted'] is None or clear > last['persisted'] for clear in last['clears']):
        raise Refused(RECORD_DAMAGED)
    return last


def versions_in_tables(id, last, files):
    """The versions that a keyspace's tables have, None where a block is wrong, ANY where no engine wrote them."""
    found, is_strange = [], False
    for number, _, length, count in last['tables']:
        text = files['keyspaces/%d/%d.table' % (id, number)]
        try:
            for handle in index(text, count):
                found += block(text, handle)
        except Broken:
            return None
        try:
            table(text, length, count)
        except Broken:
            is_strange = True
    numbers = [(key, number) for key, number, _ in found]
    is_strange |= len(set(numbers)) < len(numbers) or any(last['persisted'] is None or number > last['persisted'] for _, number in numbers)
    return ANY if is_strange else found


def shown(id, made, last, batches, files):
    """What a keyspace shows."""
    versions = versions_in_tables(id, last, files)
    if not isinstance(versions, list):
        return TABLE_DAMAGED if versions is None else ANY
    newest, clears = {}, list(last['clears'])
    for key, number, value in versions:
        newest[key] = max(newest.get(key, (-1, None)), (number, value), key=lambda one: one[0])
    for number, entries in batches:
        if number <= made or last['persisted'] is not None and number <= last['persisted']:
            continue
        clears += [number for one in entries if one == ('clear', id)]
        for one in entries:
            if one[0] == 'item' and one[1] == id:
                newest[one[3]] = (number, one[4] if one[2] == 0 else None)
    barrier = max(clears, default=-1)
    return {key: value for key, (number, value) in newest.items() if number >= barrier and value is not None}


def greatest(last):
    return max(-1 if number is None else number for number in (last['persisted'], last['highest']))


def read(files):
    """What an opening makes of a folder: the next number, and of each keyspace its name and what it shows. Raises Refused."""
    is_finished = read_marker(files)
    ids = journal_ids(files)
    if not is_finished:
        read_unfinished(ids, files)
        return 0, {}
    batches = read_journals(ids, files)
    look_at_names(files)
    catalog, living = read_catalog(files)
    homes = {id: read_home(id, files) for id in sorted(living)}
    last = max([number for number, _ in batches] + [greatest(one) for one in (catalog, *homes.values())])
    return last + 1, {id: (living[id][0], shown(id, living[id][1], homes[id], batches, files)) for id in homes}
