/* Works on the database of a folder, and prints what it is answered: the same lines as the callers in other languages. */
#include "fjall.h"

#include <stdio.h>
#include <stdlib.h>
#include <string.h>

static void told(const char *call, int32_t answer) {
    char name[32];
    size_t len = fjall_error_name(answer, name, sizeof name);
    printf("%s: %s%.*s\n", call, answer ? "" : "ok", (int)len, name);
}

static void insert(fjall_database *d, uint64_t id, const char *key, const char *value) {
    printf("%s ", key);
    told("insert", fjall_insert(d, id, key, strlen(key), value, strlen(value)));
}

static void value(const char *key, int32_t answer, struct fjall_found found, const char *room, size_t room_len) {
    if (answer)
        told("get", answer);
    else if (!found.is_there)
        printf("%s has none\n", key);
    else
        printf("%s has %zu bytes: %.*s\n", key, found.len, found.len <= room_len ? (int)found.len : 0, room);
}

static void get(fjall_database *d, uint64_t id, const char *key, size_t room_len) {
    char room[64];
    struct fjall_found found;
    int32_t answer = fjall_get(d, id, key, strlen(key), room, room_len, &found);
    value(key, answer, found, room, room_len);
}

static void get_at(fjall_database *d, uint64_t snapshot, uint64_t id, const char *key) {
    char room[64];
    struct fjall_found found;
    int32_t answer = fjall_get_at(d, snapshot, id, key, strlen(key), room, sizeof room, &found);
    value(key, answer, found, room, sizeof room);
}

static void tx_get(fjall_database *d, uint64_t tx, uint64_t id, const char *key) {
    char room[64];
    struct fjall_found found;
    int32_t answer = fjall_tx_get(d, tx, id, key, strlen(key), room, sizeof room, &found);
    value(key, answer, found, room, sizeof room);
}

static uint64_t number(const unsigned char *bytes) {
    uint64_t n = 0;
    for (int i = 7; i >= 0; i--)
        n = n << 8 | bytes[i];
    return n;
}

static void pairs(int32_t answer, struct fjall_page found, const unsigned char *room) {
    if (answer) {
        told("page", answer);
        return;
    }
    printf("page of %zu in %zu bytes:", found.count, found.len);
    const unsigned char *at = room;
    for (size_t i = 0; i < found.count; i++) {
        int key = (int)number(at), value = (int)number(at + 8);
        printf(" %.*s=%.*s", key, at + 16, value, at + 16 + key);
        at += 16 + key + value;
    }
    printf("\n");
}

static void page(fjall_database *d, uint64_t id, uint8_t start_bound, const char *start, bool back, size_t max, size_t room_len) {
    unsigned char room[256];
    struct fjall_page found;
    int32_t answer = fjall_page(d, id, start_bound, start, strlen(start), FJALL_UNBOUNDED, NULL, 0, back, max, room, room_len, &found);
    pairs(answer, found, room);
}

static void pages(fjall_database *d, uint64_t id) {
    page(d, id, FJALL_UNBOUNDED, "", false, 10, 256);
    page(d, id, FJALL_UNBOUNDED, "", false, 10, 50);
    page(d, id, FJALL_EXCLUDED, "fig", false, 1, 256);
    page(d, id, FJALL_INCLUDED, "fig", true, 2, 256);
    page(d, id, FJALL_UNBOUNDED, "", false, 10, 8);
}

static fjall_database *opened(const char *folder) {
    fjall_database *d = NULL;
    told("open", fjall_open(folder, &d));
    if (!d)
        exit(1);
    return d;
}

/* What a snapshot shows, and what a transaction that it outlives. */
static void views(fjall_database *d, uint64_t id) {
    unsigned char room[256];
    struct fjall_page found;
    uint64_t snapshot = 0;
    told("snapshot", fjall_snapshot(d, &snapshot));
    insert(d, id, "plum", "red");
    get(d, id, "plum", 64);
    get_at(d, snapshot, id, "plum");
    int32_t answer = fjall_page_at(d, snapshot, id, FJALL_UNBOUNDED, NULL, 0, FJALL_EXCLUDED, "sloe", 4, true, 10, room, sizeof room, &found);
    pairs(answer, found, room);
    told("snapshot close", fjall_snapshot_close(d, snapshot));
    told("snapshot close", fjall_snapshot_close(d, snapshot));
    get_at(d, snapshot, id, "plum");
}

/* Two transactions that are open at a time, of which the second one conflicts, and one that is rolled back. */
static void transactions(fjall_database *d, uint64_t id) {
    unsigned char room[256];
    struct fjall_page found;
    uint64_t one = 0, two = 0;
    told("begin", fjall_begin(d, &one));
    told("begin", fjall_begin(d, &two));
    told("tx insert", fjall_tx_insert(d, one, id, "plum", 4, "green", 5));
    told("tx insert", fjall_tx_insert(d, one, id, NULL, 0, "green", 5));
    told("tx remove", fjall_tx_remove(d, one, id, "sloe", 4));
    tx_get(d, one, id, "plum");
    tx_get(d, two, id, "plum");
    int32_t answer = fjall_tx_page(d, one, id, FJALL_UNBOUNDED, NULL, 0, FJALL_UNBOUNDED, NULL, 0, false, 10, room, sizeof room, &found);
    pairs(answer, found, room);
    told("tx insert", fjall_tx_insert(d, two, id, "sloe", 4, "white", 5));
    told("commit", fjall_commit(d, one));
    answer = fjall_commit(d, two);
    printf("conflict: %d\n", answer == FJALL_CONFLICT);
    told("commit", fjall_commit(d, two));
    told("begin", fjall_begin(d, &two));
    told("tx insert", fjall_tx_insert(d, two, id, "plum", 4, "white", 5));
    told("rollback", fjall_rollback(d, two));
    tx_get(d, two, id, "plum");
    get(d, id, "plum", 64);
    get(d, id, "sloe", 64);
}

int main(int argc, char **argv) {
    if (argc != 2)
        return 2;
    fjall_database *d = opened(argv[1]), *other = NULL;
    told("open again", fjall_open(argv[1], &other));
    uint64_t items = 0, more = 0, kept = 0;
    told("keyspace", fjall_keyspace(d, "items", 5, &items));
    told("keyspace", fjall_keyspace(d, "more", 4, &more));
    told("no name", fjall_keyspace(d, NULL, 0, &more));
    printf("ids %d %d\n", (int)items, (int)more);
    insert(d, items, "pear", "green");
    insert(d, items, "apple", "red");
    insert(d, items, "plum", "");
    insert(d, items, "", "nothing");
    insert(d, 99, "apple", "red");
    get(d, items, "apple", 64);
    get(d, items, "plum", 0);
    get(d, items, "pear", 4);
    get(d, items, "fig", 64);
    get(d, 99, "fig", 64);
    told("batch", fjall_batch_insert(d, items, "fig", 3, "purple", 6));
    told("batch", fjall_batch_remove(d, items, "pear", 4));
    told("batch", fjall_batch_insert(d, more, "one", 3, "1", 1));
    told("commit", fjall_batch_commit(d, FJALL_SYNC_ALL));
    told("batch", fjall_batch_insert(d, items, "fig", 3, "brown", 5));
    fjall_batch_clear(d);
    told("commit", fjall_batch_commit(d, FJALL_LATER));
    told("batch", fjall_batch_insert(d, items, "lime", 4, "green", 5));
    told("batch", fjall_batch_insert(d, 99, "lime", 4, "green", 5));
    told("commit", fjall_batch_commit(d, FJALL_BUFFER));
    pages(d, items);
    told("remove", fjall_remove(d, items, "apple", 5));
    told("persist", fjall_persist(d, FJALL_SYNC_DATA));
    told("persist", fjall_persist(d, 7));
    told("flush", fjall_flush(d, items));
    pages(d, items);
    told("keyspace", fjall_keyspace(d, "kept", 4, &kept));
    insert(d, kept, "plum", "blue");
    insert(d, kept, "sloe", "black");
    views(d, kept);
    transactions(d, kept);
    told("close", fjall_close(d));
    d = opened(argv[1]);
    told("keyspace", fjall_keyspace(d, "items", 5, &more));
    printf("the same id: %d\n", items == more);
    get(d, items, "fig", 64);
    pages(d, items);
    insert(d, items, "last", "one");
    told("close", fjall_close(d));
    return 0;
}
