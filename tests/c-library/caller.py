"""The same as caller.c, by ctypes.
usage: caller.py LIBRARY FOLDER"""

import ctypes
import sys
from ctypes import POINTER, byref, c_bool, c_char_p, c_int32, c_size_t, c_uint8, c_uint64, c_void_p

BUFFER, SYNC_DATA, SYNC_ALL, LATER = 0, 1, 2, 255
UNBOUNDED, INCLUDED, EXCLUDED = 0, 1, 2
CONFLICT = -1


class Found(ctypes.Structure):
    _fields_ = [("is_there", c_bool), ("len", c_size_t)]


class Page(ctypes.Structure):
    _fields_ = [("count", c_size_t), ("len", c_size_t)]


TEXT = [c_char_p, c_size_t]
CALLS = {
    "fjall_open": [c_char_p, POINTER(c_void_p)],
    "fjall_keyspace": [c_void_p, *TEXT, POINTER(c_uint64)],
    "fjall_insert": [c_void_p, c_uint64, *TEXT, *TEXT],
    "fjall_remove": [c_void_p, c_uint64, *TEXT],
    "fjall_get": [c_void_p, c_uint64, *TEXT, *TEXT, POINTER(Found)],
    "fjall_page": [c_void_p, c_uint64, c_uint8, *TEXT, c_uint8, *TEXT, c_bool, c_size_t, *TEXT, POINTER(Page)],
    "fjall_snapshot": [c_void_p, POINTER(c_uint64)],
    "fjall_snapshot_close": [c_void_p, c_uint64],
    "fjall_get_at": [c_void_p, c_uint64, c_uint64, *TEXT, *TEXT, POINTER(Found)],
    "fjall_page_at": [c_void_p, c_uint64, c_uint64, c_uint8, *TEXT, c_uint8, *TEXT, c_bool, c_size_t, *TEXT, POINTER(Page)],
    "fjall_begin": [c_void_p, POINTER(c_uint64)],
    "fjall_tx_insert": [c_void_p, c_uint64, c_uint64, *TEXT, *TEXT],
    "fjall_tx_remove": [c_void_p, c_uint64, c_uint64, *TEXT],
    "fjall_tx_get": [c_void_p, c_uint64, c_uint64, *TEXT, *TEXT, POINTER(Found)],
    "fjall_tx_page": [c_void_p, c_uint64, c_uint64, c_uint8, *TEXT, c_uint8, *TEXT, c_bool, c_size_t, *TEXT, POINTER(Page)],
    "fjall_commit": [c_void_p, c_uint64],
    "fjall_rollback": [c_void_p, c_uint64],
    "fjall_batch_insert": [c_void_p, c_uint64, *TEXT, *TEXT],
    "fjall_batch_remove": [c_void_p, c_uint64, *TEXT],
    "fjall_batch_commit": [c_void_p, c_uint8],
    "fjall_batch_clear": [c_void_p],
    "fjall_persist": [c_void_p, c_uint8],
    "fjall_flush": [c_void_p, c_uint64],
    "fjall_close": [c_void_p],
    "fjall_error_name": [c_int32, c_char_p, c_size_t],
}


class Refused(Exception):
    """A call was refused, by the refusal's name."""


class Library:
    def __init__(self, path):
        self.calls = ctypes.CDLL(path)
        for name, types in CALLS.items():
            getattr(self.calls, name).argtypes = types
            getattr(self.calls, name).restype = c_int32
        self.calls.fjall_batch_clear.restype = None
        self.calls.fjall_error_name.restype = c_size_t

    def call(self, name, *given):
        answer = getattr(self.calls, "fjall_" + name)(*given)
        if answer == CONFLICT:
            raise Refused("Conflict")
        if answer:
            room = ctypes.create_string_buffer(32)
            length = self.calls.fjall_error_name(answer, room, 32)
            raise Refused(room.raw[:length].decode())


class Database:
    def __init__(self, library, folder):
        self.library, self.at = library, c_void_p()
        library.call("open", folder.encode(), byref(self.at))

    def call(self, name, *given):
        self.library.call(name, self.at, *given)

    def keyspace(self, name):
        found = c_uint64()
        self.call("keyspace", name, len(name), byref(found))
        return found.value

    def insert(self, keyspace, key, value):
        self.call("insert", keyspace, key, len(key), value, len(value))

    def opened(self, name):
        """The id of a snapshot, or of a transaction."""
        found = c_uint64()
        self.call(name, byref(found))
        return found.value

    def get(self, keyspace, key, most=64, call="get", *seen):
        room, found = ctypes.create_string_buffer(max(most, 1)), Found()
        self.call(call, *seen, keyspace, key, len(key), room, most, byref(found))
        return (found.len, room.raw[:found.len] if found.len <= most else b"") if found.is_there else None

    def page(self, keyspace, start_bound, start, back, most, size, call="page", *seen, end=(UNBOUNDED, None, 0)):
        room, page = ctypes.create_string_buffer(size), Page()
        self.call(call, *seen, keyspace, start_bound, start, len(start), *end, back, most, room, size, byref(page))
        text, pairs = room.raw[:page.len], []
        for _ in range(page.count):
            key, value = int.from_bytes(text[:8], "little"), int.from_bytes(text[8:16], "little")
            pairs.append((text[16:16 + key], text[16 + key:16 + key + value]))
            text = text[16 + key + value:]
        return page, pairs


def told(what, call, *given):
    try:
        call(*given)
        print(f"{what}: ok")
    except Refused as error:
        print(f"{what}: {error}")


def get(database, keyspace, key, most=64, *seen):
    try:
        found = database.get(keyspace, key, most, *seen)
    except Refused as error:
        print(f"get: {error}")
        return
    print(f"{key.decode()} has {found[0]} bytes: {found[1].decode()}" if found else f"{key.decode()} has none")


def pages(database, keyspace):
    for given in [(UNBOUNDED, b"", False, 10, 256), (UNBOUNDED, b"", False, 10, 50), (EXCLUDED, b"fig", False, 1, 256), (INCLUDED, b"fig", True, 2, 256), (UNBOUNDED, b"", False, 10, 8)]:
        pairs(*database.page(keyspace, *given))


def pairs(page, found):
    print(f"page of {page.count} in {page.len} bytes:" + "".join(f" {key.decode()}={value.decode()}" for key, value in found))


def views(d, keyspace):
    snapshot = d.opened("snapshot")
    print("snapshot: ok")
    told("plum insert", d.insert, keyspace, b"plum", b"red")
    get(d, keyspace, b"plum")
    get(d, keyspace, b"plum", 64, "get_at", snapshot)
    pairs(*d.page(keyspace, UNBOUNDED, b"", True, 10, 256, "page_at", snapshot, end=(EXCLUDED, b"sloe", 4)))
    told("snapshot close", d.call, "snapshot_close", snapshot)
    told("snapshot close", d.call, "snapshot_close", snapshot)
    get(d, keyspace, b"plum", 64, "get_at", snapshot)


def transactions(d, keyspace):
    one, two = d.opened("begin"), d.opened("begin")
    print("begin: ok\nbegin: ok")
    told("tx insert", d.call, "tx_insert", one, keyspace, b"plum", 4, b"green", 5)
    told("tx insert", d.call, "tx_insert", one, keyspace, b"", 0, b"green", 5)
    told("tx remove", d.call, "tx_remove", one, keyspace, b"sloe", 4)
    get(d, keyspace, b"plum", 64, "tx_get", one)
    get(d, keyspace, b"plum", 64, "tx_get", two)
    pairs(*d.page(keyspace, UNBOUNDED, b"", False, 10, 256, "tx_page", one))
    told("tx insert", d.call, "tx_insert", two, keyspace, b"sloe", 4, b"white", 5)
    told("commit", d.call, "commit", one)
    try:
        d.call("commit", two)
        print("conflict: 0")
    except Refused as error:
        print(f"conflict: {int(str(error) == 'Conflict')}")
    told("commit", d.call, "commit", two)
    two = d.opened("begin")
    print("begin: ok")
    told("tx insert", d.call, "tx_insert", two, keyspace, b"plum", 4, b"white", 5)
    told("rollback", d.call, "rollback", two)
    get(d, keyspace, b"plum", 64, "tx_get", two)
    get(d, keyspace, b"plum")
    get(d, keyspace, b"sloe")


def main(path, folder):
    library = Library(path)
    d = Database(library, folder)
    print("open: ok")
    told("open again", Database, library, folder)
    items, more = [d.keyspace(name) for name in (b"items", b"more")]
    print("keyspace: ok\nkeyspace: ok")
    told("no name", d.keyspace, b"")
    print(f"ids {items} {more}")
    for keyspace, key, value in [(items, b"pear", b"green"), (items, b"apple", b"red"), (items, b"plum", b""), (items, b"", b"nothing"), (99, b"apple", b"red")]:
        told(f"{key.decode()} insert", d.insert, keyspace, key, value)
    get(d, items, b"apple")
    get(d, items, b"plum", 0)
    get(d, items, b"pear", 4)
    get(d, items, b"fig")
    get(d, 99, b"fig")
    told("batch", d.call, "batch_insert", items, b"fig", 3, b"purple", 6)
    told("batch", d.call, "batch_remove", items, b"pear", 4)
    told("batch", d.call, "batch_insert", more, b"one", 3, b"1", 1)
    told("commit", d.call, "batch_commit", SYNC_ALL)
    told("batch", d.call, "batch_insert", items, b"fig", 3, b"brown", 5)
    library.calls.fjall_batch_clear(d.at)
    told("commit", d.call, "batch_commit", LATER)
    told("batch", d.call, "batch_insert", items, b"lime", 4, b"green", 5)
    told("batch", d.call, "batch_insert", 99, b"lime", 4, b"green", 5)
    told("commit", d.call, "batch_commit", BUFFER)
    pages(d, items)
    told("remove", d.call, "remove", items, b"apple", 5)
    told("persist", d.call, "persist", SYNC_DATA)
    told("persist", d.call, "persist", 7)
    told("flush", d.call, "flush", items)
    pages(d, items)
    kept = d.keyspace(b"kept")
    print("keyspace: ok")
    told("plum insert", d.insert, kept, b"plum", b"blue")
    told("sloe insert", d.insert, kept, b"sloe", b"black")
    views(d, kept)
    transactions(d, kept)
    told("close", d.call, "close")
    d = Database(library, folder)
    print("open: ok\nkeyspace: ok")
    print(f"the same id: {int(d.keyspace(b'items') == items)}")
    get(d, items, b"fig")
    pages(d, items)
    told("last insert", d.insert, items, b"last", b"one")
    told("close", d.call, "close")


if __name__ == "__main__":
    main(*sys.argv[1:])
