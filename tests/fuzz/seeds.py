#!/usr/bin/env python3
"""Writes seeds for tests/fuzz/harness.c into FOLDER: for each reader some whole and some damaged bytes, made by hand from docs/FORMATS.md,
and for the readers that frame their input the parts of which it is made. The first byte of a seed chooses the reader.
usage: tests/fuzz/seeds.py FOLDER"""
import hashlib
import pathlib
import struct
import sys

sys.dont_write_bytecode = True
TESTS = pathlib.Path(__file__).resolve().parent.parent
sys.path.insert(0, str(TESTS))
from folder_damage import batch_text, framed_record, record_text, table_text  # noqa: E402

READERS = ['journal', 'batches', 'current', 'records', 'table', 'blocks', 'policy', 'options', 'pairs', 'marker', 'lines', 'find',
           'keyspaces']
# The options by name, each with its default.
OPTIONS = {
    'compaction_strategy': b'LeveledCompaction', 'data_block_compression_policy': b'\1\0', 'data_block_hash_ratio_policy': b'\1\0\0\0\0',
    'data_block_restart_interval_policy': b'\2\x0a\x10', 'data_block_size_policy': b'\1\0\x10\0\0', 'expect_point_read_hits': b'\0',
    'filter_block_partitioning_policy': b'\4\0\0\0\1', 'filter_block_pinning_policy': b'\2\1\0',
    'filter_policy': b'\2\1\1\x64\0\0\0\1\0\x80\x96\x98\0', 'index_block_compression_policy': b'\1\0',
    'index_block_partitioning_policy': b'\4\0\0\0\1', 'index_block_pinning_policy': b'\3\1\1\0', 'index_block_restart_interval_policy': b'\1\1',
    'level_count': b'\7', 'leveled_l0_threshold': b'\4', 'leveled_level_ratio_policy': b'\1\x80\x96\x98\0',
    'leveled_target_size': b'\0\0\0\4\0\0\0\0', 'manual_journal_persist': b'\0', 'max_memtable_size': b'\0\0\0\4\0\0\0\0', 'version': b'\3'}


def part(text):
    return struct.pack('<H', len(text)) + text


def body(persisted=None, highest=None, tables=(), clears=()):
    """The body of a record, which stands between its length and its check."""
    fields = {'persisted': persisted, 'highest': highest, 'next_table': 9, 'next_keyspace': 0, 'tables': tables, 'clears': clears}
    return record_text(fields)[4:-8]


def payload(*entries):
    return b''.join(struct.pack('<HBQI', len(key), value is None, number, len(value or b'')) + key + (value or b'') for key, number, value in entries)


def journals():
    one = [('item', 1, 0, b'a', b'b')]
    two = [('item', 1, 1, b'c', b''), ('clear', 2), ('item', 3, 2, b'long key', b'v' * 40)]
    text = batch_text(1, one) + batch_text(2, two) + batch_text(5, [])
    yield from (b'', text, text[:-3], text[:30] + b'\xff' + text[31:], batch_text(1, one, 2), batch_text(1, two, 1), batch_text(1, [('item', 1, 4, b'a', b'')]))


def batches():
    texts = [batch_text(1, entries)[13:-13] for entries in ([('item', 1, 0, b'a', b'b')], [('clear', 2), ('item', 3, 1, b'key', b'')], [])]
    yield b''.join(part(bytes([count]) + text) for count, text in zip((1, 2, 0), texts))
    yield part(b'\2' + texts[0]) + part(b'\0' + texts[1])


def records():
    return [body(), body(3, 7, [(1, 0, 104, 1), (2, 1, 5224, 300)], [2, 3]), body(9, 9, [(8, 1, 1, 1)]), body(1, 1, [(9, 0, 1, 1)]), body(clears=[2, 1])]


def tables():
    many = [(struct.pack('>H', key), 1, b'') for key in range(300)]
    yield from map(table_text, ([(b'a', 1, b'b')], [(b'a', 2, None), (b'a', 1, b'b'), (b'b', 9, b'value')], many, [(b'b', 1, b''), (b'a', 1, b'')]))


def blocks():
    yield part(payload((b'a', 2, None), (b'a', 1, b'b'), (b'b', 9, b'value')))
    yield part(payload((b'a', 1, b'v' * 4096))) + part(payload((b'b', 1, b'v' * 4096))) + part(payload((b'c', 1, b'')))
    yield part(payload((b'b', 1, b''))) + part(payload((b'a', 1, b'')))


def finds():
    entries = [(b'a', 2, None), (b'a', 1, b'b'), (b'b', 9, b'value'), (b'long key', 3, b'')]
    yield from (part(key) + part(payload(*entries)) for key in (b'', b'a', b'b', b'c', b'long key'))


def pairs(count):
    """The pairs of so many keyspaces, as the meta keyspace stores them: by key."""
    ids = [struct.pack('>Q', id) for id in range(1, count + 1)]
    found = [(b'c' + id + name.encode(), value) for id in ids for name, value in OPTIONS.items()] + [(b'n' + id, b'name' + id[-1:]) for id in ids]
    return b''.join(part(key) + part(value) for key, value in found)


def seeds():
    named = {
        'journal': journals(), 'batches': batches(),
        'current': [b''.join(map(framed_record, records()[:count])) for count in range(6)] + [framed_record(records()[1])[:-1]],
        'records': [b''.join(map(part, records()[:count])) for count in range(1, 6)], 'table': tables(), 'blocks': blocks(),
        'policy': [bytes([kind]) + value for kind in range(5) for value in OPTIONS.values()],
        'options': [b'', b''.join(map(part, OPTIONS.values())), part(b'') * 15 + part(b'\1\0\0\0\0\0\0\0'), part(b'x'), part(b'') * 17 + part(b'\0')],
        'pairs': [b'', pairs(1), pairs(2), pairs(2)[:-20]],
        'find': finds(), 'keyspaces': [part(b'one'), part(b'one') + part(b'') * 20 + part(b'two') + part(b'x'), (part(b'one') + part(b'') * 20) * 2],
        'marker': [b'', b'FJ', b'FJL\3', b'FJL\2', b'FJLx', b'FJL\3more'],
        'lines': [b'\n'.join(path.read_bytes().splitlines()[:40]) for path in sorted(TESTS.glob('scripts/*.in'))]}
    return [bytes([READERS.index(name)]) + text for name, texts in named.items() for text in texts]


def main():
    if len(sys.argv) != 2:
        sys.exit(__doc__)
    folder = pathlib.Path(sys.argv[1])
    folder.mkdir(parents=True, exist_ok=True)
    for text in seeds():
        (folder / hashlib.sha256(text).hexdigest()[:16]).write_bytes(text)


if __name__ == '__main__':
    main()
