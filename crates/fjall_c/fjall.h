/* A database over a folder, for callers in C and in what calls as C does.
 *
 * A call answers 0, or the number of a refusal, whose name `fjall_error_name` tells; a commit may answer FJALL_CONFLICT. Keys, values and names are a pointer and a length.
 * One thread at a time calls through a database, and never from a signal handler or the child of a fork. After a call that answers
 * FJALL_IO where it was to change the folder, each further one answers FJALL_POISONED: close the database and open it again. */
#ifndef FJALL_H
#define FJALL_H

#include <stdbool.h>
#include <stddef.h>
#include <stdint.h>

#ifdef __cplusplus
extern "C" {
#endif

enum {
    /* a transaction read what another one wrote and committed since it began */
    FJALL_CONFLICT = -1,
    FJALL_IO = 1,
    FJALL_STORAGE = 2,
    FJALL_JOURNAL_RECOVERY = 3,
    FJALL_INVALID_VERSION = 4,
    FJALL_INVALID_TAG = 7,
    FJALL_POISONED = 8,
    FJALL_KEYSPACE_DELETED = 9,
    FJALL_LOCKED = 10,
    FJALL_UNRECOVERABLE = 11,
    FJALL_KEY_EMPTY = 12,
    FJALL_KEY_TOO_LONG = 13,
    FJALL_VALUE_TOO_LONG = 14,
    FJALL_INVALID_NAME = 15,
    FJALL_OUT_OF_MEMORY = 17,
    FJALL_NUMBERS_USED_UP = 18,
    FJALL_UNKNOWN_KEYSPACE = 19,
    FJALL_SNAPSHOT_CLOSED = 20,
    FJALL_TOO_MANY_ITEMS = 22,
};

/* How a command is persisted: to the system, so that a crash of the program loses nothing, or to the device too. */
enum { FJALL_BUFFER = 0, FJALL_SYNC_DATA = 1, FJALL_SYNC_ALL = 2, FJALL_LATER = 255 };

/* Where a range begins and ends. */
enum { FJALL_UNBOUNDED = 0, FJALL_INCLUDED = 1, FJALL_EXCLUDED = 2 };

typedef struct fjall_database fjall_database;

/* Whether a key has a value, and how many bytes it has. */
struct fjall_found {
    bool is_there;
    size_t len;
};

/* How many pairs a page has, and how many bytes they take where they are packed. */
struct fjall_page {
    size_t count;
    size_t len;
};

/* Opens the database in a folder, which is made with those above it where it is missing, and which nobody else opens until it is
 * closed. The files of the folder are read into memory, where they stay. */
int32_t fjall_open(const char *path, fjall_database **database);

/* The id of the keyspace of a name, of 1 to 255 bytes, which is made where none has it. */
int32_t fjall_keyspace(fjall_database *database, const void *name, size_t name_len, uint64_t *keyspace);

/* Gives a key, of 1 to 65,535 bytes, a value, and hands that to the system. A crash of the machine may lose it until the journal is
 * synced. */
int32_t fjall_insert(fjall_database *database, uint64_t keyspace, const void *key, size_t key_len, const void *value, size_t value_len);

/* Takes a key and its value away, whether it is there or not. */
int32_t fjall_remove(fjall_database *database, uint64_t keyspace, const void *key, size_t key_len);

/* The value that a key has, into a room where that is as long. */
int32_t fjall_get(fjall_database *database, uint64_t keyspace, const void *key, size_t key_len, void *room, size_t room_len, struct fjall_found *found);

/* The first pairs of a range, or the last ones, at most `max` and as many as the room has place for, in the order of their keys. A pair
 * is the length of its key and that of its value, of eight bytes each, the low one first, and then both. Where `count` is 0 and there
 * are pairs, the room is too short for one. */
int32_t fjall_page(fjall_database *database, uint64_t keyspace, uint8_t start_bound, const void *start, size_t start_len, uint8_t end_bound, const void *end, size_t end_len, bool back, size_t max, void *room, size_t room_len, struct fjall_page *page);

/* A snapshot shows what the database has now, whatever comes after, until it is closed; a closing of the database closes it too. Reads at
 * it are those of the present with its id before the keyspace. An id that names none that is open is refused with
 * FJALL_SNAPSHOT_CLOSED. */
int32_t fjall_snapshot(fjall_database *database, uint64_t *snapshot);
int32_t fjall_snapshot_close(fjall_database *database, uint64_t snapshot);
int32_t fjall_get_at(fjall_database *database, uint64_t snapshot, uint64_t keyspace, const void *key, size_t key_len, void *room, size_t room_len, struct fjall_found *found);
int32_t fjall_page_at(fjall_database *database, uint64_t snapshot, uint64_t keyspace, uint8_t start_bound, const void *start, size_t start_len, uint8_t end_bound, const void *end, size_t end_len, bool back, size_t max, void *room, size_t room_len, struct fjall_page *page);

/* An optimistic transaction reads what the database had when it began, with its own writes, which nobody else sees until it is committed.
 * Many may be open. A commit makes its own writes as one command, as fjall_insert does one, or answers FJALL_CONFLICT where another one
 * committed since it began a key that it read, or one within a range of which it read a page; then nothing of it is made: begin again. What
 * fjall_insert, fjall_remove and batches write is no transaction's, so that no commit conflicts with it: write what transactions read in
 * transactions alone. Both ends end it, whatever they answer. An id that names none that is open is refused with FJALL_SNAPSHOT_CLOSED; ids are of the same numbers
 * as those of snapshots. */
int32_t fjall_begin(fjall_database *database, uint64_t *transaction);
int32_t fjall_tx_insert(fjall_database *database, uint64_t transaction, uint64_t keyspace, const void *key, size_t key_len, const void *value, size_t value_len);
int32_t fjall_tx_remove(fjall_database *database, uint64_t transaction, uint64_t keyspace, const void *key, size_t key_len);
int32_t fjall_tx_get(fjall_database *database, uint64_t transaction, uint64_t keyspace, const void *key, size_t key_len, void *room, size_t room_len, struct fjall_found *found);
int32_t fjall_tx_page(fjall_database *database, uint64_t transaction, uint64_t keyspace, uint8_t start_bound, const void *start, size_t start_len, uint8_t end_bound, const void *end, size_t end_len, bool back, size_t max, void *room, size_t room_len, struct fjall_page *page);
int32_t fjall_commit(fjall_database *database, uint64_t transaction);
int32_t fjall_rollback(fjall_database *database, uint64_t transaction);

/* One batch, which is committed as one command: a crash leaves all of it or none. */
int32_t fjall_batch_insert(fjall_database *database, uint64_t keyspace, const void *key, size_t key_len, const void *value, size_t value_len);
int32_t fjall_batch_remove(fjall_database *database, uint64_t keyspace, const void *key, size_t key_len);
int32_t fjall_batch_commit(fjall_database *database, uint8_t mode);
void fjall_batch_clear(fjall_database *database);

/* Syncs the journal: what was accepted before then outlives a crash. */
int32_t fjall_persist(fjall_database *database, uint8_t mode);

/* Moves what a keyspace has in memory to a table, and merges its tables where that is due. */
int32_t fjall_flush(fjall_database *database, uint64_t keyspace);

/* Syncs the journal, closes the database, and frees it, whatever it answers. */
int32_t fjall_close(fjall_database *database);

/* The name of a refusal, into a room where that is as long. It answers how many bytes it has. */
size_t fjall_error_name(int32_t number, char *room, size_t room_len);

#ifdef __cplusplus
}
#endif

#endif
