"""Folders that no engine left: a folder's files, damaged in one way or several, with right checks too."""
import struct

from folder_reader import MARK, Broken, Refused, block, check, index, journal, records


# ---- bytes of files, anew

def batch_text(number, entries, count=None):
    """A whole batch of these entries, as folder_reader reads them; with another count where one is given."""
    text = struct.pack('<BIQ', 1, len(entries) if count is None else count, number)
    for one in entries:
        if one[0] == 'item':
            _, id, kind, key, value = one
            text += struct.pack('<BBBQHII', 2, kind, 0, id, len(key), len(value), len(value)) + key + value
        else:
            text += struct.pack('<BQ', 4, one[1])
    return text + b'\x03' + check(text) + MARK


def record_text(last):
    body = b'\x01' + b''.join(struct.pack('<BQ', one is not None, one or 0) for one in (last['persisted'], last['highest']))
    body += struct.pack('<QQI', last['next_table'], last['next_keyspace'], len(last['tables']))
    body += b''.join(struct.pack('<QBQQ', *one) for one in last['tables'])
    body += struct.pack('<I', len(last['clears'])) + b''.join(struct.pack('<Q', one) for one in last['clears'])
    return framed_record(body)


def framed_record(body):
    text = struct.pack('<I', len(body)) + body
    return text + check(text)


def framed(payload):
    text = struct.pack('<Q', len(payload)) + payload
    return text + check(text)


def table_text(entries):
    """A table of these entries, in this order, its blocks closed as an engine closes them."""
    blocks, handles, payload, first = b'', b'', b'', b''
    for at, (key, number, value) in enumerate(entries):
        first = first if payload else key
        payload += struct.pack('<HBQI', len(key), value is None, number, len(value or b'')) + key + (value or b'')
        if len(payload) >= 4096 or at + 1 == len(entries):
            text = framed(payload)
            handles += struct.pack('<QQH', len(blocks), len(text), len(first)) + first
            blocks, payload = blocks + text, b''
    footer = b'FJT\x01' + struct.pack('<QQQ', len(blocks), len(framed(handles)), len(entries))
    return blocks + framed(handles) + footer + check(footer)


def entries_of(text):
    count = struct.unpack_from('<Q', text, len(text) - 16)[0]
    return [one for handle in index(text, count) for one in block(text, handle)]


# ---- damages

NUMBERS = [0, 1, 2, 3, 5, 9, 12, 1 << 31, (1 << 32) - 1, (1 << 62), (1 << 63) - 1, 1 << 63, (1 << 64) - 1]


class Damage:
    """Damages of a folder's files; each is a method that changes `files`, and may leave them as they are."""

    def __init__(self, random, files, others):
        self.random, self.files, self.others = random, dict(files), others
        self.told = []

    def names(self, ending=''):
        return sorted(name for name, text in self.files.items() if text is not None and name.endswith(ending))

    def pick(self, things):
        things = list(things)
        return self.random.choice(things) if things else None

    def number(self, near):
        return self.pick([near + 1, max(near - 1, 0), near + 2] + NUMBERS) % (1 << 64)

    def of_file(self, ending=''):
        """A file that has bytes."""
        return self.pick(name for name in self.names(ending) if self.files[name])

    # ---- without regard to what the bytes are

    def byte(self):
        name = self.of_file()
        text = bytearray(self.files[name])
        text[self.random.randrange(len(text))] ^= self.pick([1, 2, 4, 128, 255, self.random.randrange(1, 256)])
        self.files[name] = bytes(text)

    def cut(self):
        name = self.of_file()
        text = self.files[name]
        self.files[name] = text[:self.pick([0, len(text) - 1, self.random.randrange(len(text))])]

    def front(self):
        name = self.of_file()
        self.files[name] = self.files[name][self.random.randrange(1, len(self.files[name]) + 1):]

    def added(self):
        name, other = self.pick(self.names()), self.of_file()
        text = self.files[other]
        more = [bytes(self.random.randrange(1, 200)), self.random.randbytes(self.random.randrange(1, 60)), text[:self.random.randrange(len(text)) + 1], text]
        self.files[name] += self.pick(more)

    def doubled(self):
        name = self.of_file()
        text = self.files[name]
        begin, end = sorted(self.random.randrange(len(text) + 1) for _ in range(2))
        self.files[name] = self.pick([text + text, text[:end] + text[begin:end] + text[end:], text[:begin] + text[end:]])

    def swapped(self):
        ending = self.pick(['', '.jnl', '.table', 'current'])
        one, other = self.pick(self.names(ending) or self.names()), self.pick(self.names(ending) or self.names())
        self.files[one], self.files[other] = self.files[other], self.files[one]

    def of_another_folder(self):
        name, files = self.pick(self.names()), self.pick(self.others)
        texts = [text for other, text in sorted(files.items()) if text is not None and other.rsplit('/')[-1][-4:] == name.rsplit('/')[-1][-4:]]
        self.files[name] = self.pick(texts or [b''])

    def removed(self):
        self.files.pop(self.pick(self.names()))

    def renamed(self):
        name = self.pick(self.names())
        front, slash, last = name.rpartition('/')
        stem, dot, ending = last.rpartition('.')
        names = [last + 'x', last.upper(), '0' + last, str(self.random.randrange(12)) + dot + ending, 'x' + dot + ending, dot + ending,
                 '18446744073709551615' + dot + ending, '18446744073709551616' + dot + ending, 'version', 'current', 'notes.txt']
        new = front + slash + self.pick(one for one in names if one)
        if self.files.get(new, b'') is not None:
            self.files[new] = self.files.pop(name)

    def copied(self):
        name = self.pick(self.names())
        folder = self.pick(['', 'keyspaces/', 'keyspaces/0/', 'keyspaces/1/', 'keyspaces/2/'])
        new = folder + name.rsplit('/')[-1]
        if (not folder or folder[:-1] in self.files) and self.files.get(new, b'') is not None:
            self.files[new] = self.files[name]

    def folder_moved(self):
        """A keyspace's folder has another name, that of another one, or is gone."""
        folders = sorted(name for name, text in self.files.items() if text is None and name.startswith('keyspaces/'))
        if not folders:
            return
        folder, other = self.pick(folders), self.pick(folders + ['keyspaces/7', 'keyspaces/00', 'keyspaces/x', 'keyspaces/18446744073709551615', None])
        moved = {name: text for name, text in self.files.items() if name == folder or name.startswith(folder + '/')}
        mine = {name: text for name, text in self.files.items() if other and (name == other or name.startswith(other + '/'))}
        for name in moved | mine:
            self.files.pop(name)
        for name, text in moved.items() if other else ():
            self.files[other + name[len(folder):]] = text
        for name, text in mine.items():
            self.files[folder + name[len(other):]] = text

    def stranger(self):
        name = self.pick(['notes', '.jnl', 'x.jnl', '0.JNL', '00.jnl', '3.jnl', '12.jnl', 'keyspaces/notes', 'keyspaces/1/notes', 'keyspaces/0/9.table',
                          'keyspaces/1/9.table', 'keyspaces/2/current.jnl', '+1.jnl', '1.jnl.jnl', '18446744073709551616.jnl'])
        folder = name.rpartition('/')[0]
        if (not folder or folder in self.files) and name not in self.files:
            self.files[name] = self.pick([b'', b'x', self.files[self.of_file()]])

    def marker(self):
        self.files['version'] = self.pick([b'FJL\x01', b'FJL\x02', b'FJL\x04', b'FJ', b'', b'FJL', b'FK', b'FJL\x03more', b'fjl\x03', b'FJL\x00'])

    # ---- with right checks

    def batch(self):
        """A batch of a journal is another one, comes twice, is left out, or stands elsewhere."""
        name = self.of_file('.jnl')
        batches, tail = journal(self.files[name]) if name else ([], '')
        if not batches:
            return
        at = self.random.randrange(len(batches))
        number, entries = batches[at]
        texts = [batch_text(*one) for one in batches]
        end = self.files[name][sum(map(len, texts)):]
        texts[at] = self.pick([
            batch_text(self.number(number), entries), batch_text(number, entries, self.number(len(entries)) % (1 << 32)),
            batch_text(number, self.other_entries(entries)), batch_text(number, self.other_entries(entries)), texts[at] * 2, b'',
            texts[at] + batch_text((number + 1) % (1 << 64), []), texts[at] + batch_text(self.number(number), [self.pick(entries or [('clear', 1)])])])
        if self.random.random() < 0.1:
            self.random.shuffle(texts)
        self.files[name] = b''.join(texts) + end

    def other_entries(self, entries):
        """Other entries than these."""
        if not entries:
            return [('clear', 1)]
        at = self.random.randrange(len(entries))
        one = entries[at]
        if one[0] == 'clear':
            new = self.pick([('clear', self.number(one[1])), ('item', one[1], 0, b'k', b'v')])
        else:
            _, id, kind, key, value = one
            new = self.pick([('item', self.number(id), kind, key, value), ('item', id, self.pick([0, 1, 2, 4, 3]), key, value), ('clear', id),
                             ('item', id, kind, self.pick([b'a', b'\xff' * 300, key + b'\0']), value), ('item', id, kind, key, self.random.randbytes(9))])
        return self.pick([entries[:at] + [new] + entries[at + 1:], entries + [new], entries[:at] + entries[at + 1:], entries[::-1]])

    def indirection(self):
        """An item of a batch has the type that no journal may hold, or one that means nothing."""
        name = self.of_file('.jnl')
        batches = journal(self.files[name])[0] if name else []
        places = [(at, place) for at, (_, entries) in enumerate(batches) for place, one in enumerate(entries) if one[0] == 'item']
        if places:
            at, place = self.pick(places)
            number, entries = batches[at]
            one = entries[place]
            entries = entries[:place] + [(*one[:2], self.pick([4, 4, 4, 3, 5]), *one[3:])] + entries[place + 1:]
            texts = [batch_text(*other) for other in batches[:at]] + [batch_text(number, entries)] + [batch_text(*other) for other in batches[at + 1:]]
            self.files[name] = b''.join(texts)

    def record(self):
        """The last record of a `current` is another one, or one more comes."""
        name = self.of_file('current')
        try:
            found = records(self.files[name]) if name else []
        except Refused:
            return
        if not found:
            return
        last = dict(found[-1])
        field = self.pick(['persisted', 'highest', 'next_table', 'next_keyspace', 'tables', 'clears', 'body'])
        text = framed_record(self.other_body(last['body'])) if field == 'body' else record_text(last | {field: self.other_field(field, last[field])})
        texts = [framed_record(one['body']) for one in found]
        self.files[name] = b''.join(self.pick([texts[:-1] + [text], texts + [text], [text], texts[-1:], texts + texts[:1], texts[:-1]]))

    def other_body(self, body):
        body = bytearray(body)
        place = self.random.randrange(len(body))
        body[place] ^= self.pick([1, 2, 128])
        return self.pick([bytes(body), bytes(body[:place]), bytes(body) + b'\0'])

    def other_field(self, field, value):
        if field in ('persisted', 'highest'):
            return self.pick([None, self.number(value or 0)])
        if field in ('next_table', 'next_keyspace'):
            return self.number(value)
        if field == 'clears':
            return self.pick([value + [self.number(max(value, default=3))], value[:-1], value[::-1], value * 2])
        tables = [list(one) for one in value]
        if tables and self.random.random() < 0.7:
            place = self.random.randrange(4)
            one = self.pick(tables)
            one[place] = self.pick([0, 1, 2]) if place == 1 else self.number(one[place])
        return self.pick([tables, tables, tables[:-1], tables[::-1], tables * 2]) if value else [[1, 1, 104, 1]]

    def entry(self):
        """A table, whole and with right checks, has another entry, or one less; its record tells so, or doesn't."""
        name = self.of_file('.table')
        try:
            entries = entries_of(self.files[name]) if name else []
        except (Broken, struct.error):
            return
        if not entries:
            return
        at = self.random.randrange(len(entries))
        key, number, value = entries[at]
        new = self.pick([(key, number, self.other_value(value)), (key, number, self.other_value(value)), (key, self.number(number), value),
                         (key, number, None), (key + b'\0', number, value)])
        before = len(self.files[name])
        self.files[name] = table_text(self.pick([entries[:at] + [new] + entries[at + 1:], entries[:at] + entries[at + 1:] or entries]))
        if self.random.random() < 0.9:
            self.tell(name, before)

    def other_value(self, value):
        """Another value: of an option one that may be no value of it."""
        value = value or b''
        return self.pick([b'', b'\0', b'\1', b'\1\0', b'\1\2', b'\1\1\5', b'\2\0\1', b'\1\1\0\0\0\0\0', value + b'\0', value[:-1], bytes(len(value)),
                          self.random.randbytes(len(value)), b'LeveledCompactioN'])

    def tell(self, name, before):
        """The record of a table's folder tells its length and count."""
        current = name.rpartition('/')[0] + '/current'
        try:
            found = records(self.files.get(current))
        except Refused:
            return
        stem = name.rsplit('/')[-1].partition('.')[0]
        text = self.files[name]
        count = struct.unpack_from('<Q', text, len(text) - 16)[0]
        for last in found[-1:]:
            last['tables'] = [(id, level, len(text), count) if str(id) == stem else (id, level, length, of)
                              for id, level, length, of in last['tables']]
            self.files[current] = b''.join([framed_record(one['body']) for one in found[:-1]] + [record_text(last)])

    def frame(self):
        """A byte of a table's index or footer is another one, with right checks."""
        name = self.of_file('.table')
        if not name or len(self.files[name]) < 80:
            return
        text = bytearray(self.files[name])
        begin = struct.unpack_from('<Q', text, len(text) - 32)[0]
        if not 0 <= begin < len(text) - 52:
            return
        place = self.random.randrange(begin, len(text) - 8)
        text[place] ^= self.pick([1, 2, 128])
        text[-44:-36] = check(bytes(text[begin:-44]))
        text[-8:] = check(bytes(text[-36:-8]))
        self.files[name] = bytes(text)

    def damage(self, count):
        """Damages it in so many ways."""
        plain = [self.byte] * 4 + [self.cut] * 3 + [self.front, self.added, self.doubled, self.swapped, self.of_another_folder, self.removed, self.renamed]
        plain += [self.copied, self.folder_moved, self.stranger, self.marker]
        right = [self.batch] * 6 + [self.record] * 6 + [self.entry] * 6 + [self.frame, self.indirection]
        for _ in range(count):
            if self.names() and self.of_file():
                way = self.pick(plain if self.random.random() < 0.5 else right)
                self.told.append(way.__name__)
                way()
        return self.files
