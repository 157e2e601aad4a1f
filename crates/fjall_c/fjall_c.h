/* The calls of the proved library, for `fjall.c`, which keeps a folder by them. Callers of their own take `fjall.h`.
 *
 * Texts and rooms are a pointer and a length. A call answers 0, the number of a refusal, or a commit FJALL_CONFLICT. One thread at a time calls through a
 * handle, and never from a signal handler. `malloc`, `realloc` and `free` come from one allocator. */
#ifndef FJALL_C_H
#define FJALL_C_H

#include "fjall.h"

/* The handle: C copies it, and never looks at what it points to. */
typedef struct {
    uint8_t *at;
} fjall_c_database;

int32_t fjall_c_new(fjall_c_database *database);
int32_t fjall_c_put_folder(fjall_c_database *database, const uint8_t *name, size_t name_len);
int32_t fjall_c_put_file(fjall_c_database *database, const uint8_t *name, size_t name_len, const uint8_t *bytes, size_t bytes_len);
int32_t fjall_c_open(fjall_c_database *database);

/* What the folder is to take: looked at, and then taken. */
bool fjall_c_change_lengths(fjall_c_database *database, size_t *name_len, size_t *bytes_len);
uint8_t fjall_c_take_change(fjall_c_database *database, uint8_t *name, size_t name_len, uint8_t *bytes, size_t bytes_len, size_t *len);

int32_t fjall_c_keyspace(fjall_c_database *database, const uint8_t *name, size_t name_len, uint64_t *keyspace);
int32_t fjall_c_insert(fjall_c_database *database, uint64_t keyspace, const uint8_t *key, size_t key_len, const uint8_t *value, size_t value_len);
int32_t fjall_c_remove(fjall_c_database *database, uint64_t keyspace, const uint8_t *key, size_t key_len);
int32_t fjall_c_get(fjall_c_database *database, uint64_t keyspace, const uint8_t *key, size_t key_len, uint8_t *room, size_t room_len, struct fjall_found *found);
int32_t fjall_c_page(fjall_c_database *database, uint64_t keyspace, uint8_t start_bound, const uint8_t *start, size_t start_len, uint8_t end_bound, const uint8_t *end, size_t end_len, bool back, size_t max, uint8_t *room, size_t room_len, struct fjall_page *page);
int32_t fjall_c_snapshot(fjall_c_database *database, uint64_t *snapshot);
int32_t fjall_c_snapshot_close(fjall_c_database *database, uint64_t snapshot);
int32_t fjall_c_get_at(fjall_c_database *database, uint64_t snapshot, uint64_t keyspace, const uint8_t *key, size_t key_len, uint8_t *room, size_t room_len, struct fjall_found *found);
int32_t fjall_c_page_at(fjall_c_database *database, uint64_t snapshot, uint64_t keyspace, uint8_t start_bound, const uint8_t *start, size_t start_len, uint8_t end_bound, const uint8_t *end, size_t end_len, bool back, size_t max, uint8_t *room, size_t room_len, struct fjall_page *page);
int32_t fjall_c_begin(fjall_c_database *database, uint64_t *transaction);
int32_t fjall_c_tx_insert(fjall_c_database *database, uint64_t transaction, uint64_t keyspace, const uint8_t *key, size_t key_len, const uint8_t *value, size_t value_len);
int32_t fjall_c_tx_remove(fjall_c_database *database, uint64_t transaction, uint64_t keyspace, const uint8_t *key, size_t key_len);
int32_t fjall_c_tx_get(fjall_c_database *database, uint64_t transaction, uint64_t keyspace, const uint8_t *key, size_t key_len, uint8_t *room, size_t room_len, struct fjall_found *found);
int32_t fjall_c_tx_page(fjall_c_database *database, uint64_t transaction, uint64_t keyspace, uint8_t start_bound, const uint8_t *start, size_t start_len, uint8_t end_bound, const uint8_t *end, size_t end_len, bool back, size_t max, uint8_t *room, size_t room_len, struct fjall_page *page);
int32_t fjall_c_commit(fjall_c_database *database, uint64_t transaction);
int32_t fjall_c_rollback(fjall_c_database *database, uint64_t transaction);
int32_t fjall_c_batch_insert(fjall_c_database *database, uint64_t keyspace, const uint8_t *key, size_t key_len, const uint8_t *value, size_t value_len);
int32_t fjall_c_batch_remove(fjall_c_database *database, uint64_t keyspace, const uint8_t *key, size_t key_len);
int32_t fjall_c_batch_commit(fjall_c_database *database, uint8_t mode);
void fjall_c_batch_clear(fjall_c_database *database);
int32_t fjall_c_persist(fjall_c_database *database, uint8_t mode);
int32_t fjall_c_flush(fjall_c_database *database, uint64_t keyspace);
int32_t fjall_c_close(fjall_c_database *database);
void fjall_c_free(fjall_c_database database);
size_t fjall_c_error_name(uint8_t number, uint8_t *room, size_t room_len);

#endif
