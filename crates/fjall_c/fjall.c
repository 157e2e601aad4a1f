/* The folder of a database. The proved library works on its files in memory; what it changes of them is carried out here, in its
 * order, before a call answers. Nothing here is proved. */
#define _GNU_SOURCE
#include "fjall_c.h"

#include <dirent.h>
#include <errno.h>
#include <fcntl.h>
#include <stdio.h>
#include <stdlib.h>
#include <string.h>
#include <sys/file.h>
#include <sys/stat.h>
#include <unistd.h>

struct fjall_database {
    fjall_c_database engine;
    int folder;
    int lock;
    /* a change of the folder failed */
    bool is_poisoned;
    /* the file that was changed last stays open, and is synced before another takes its place */
    char *name;
    int file;
    bool is_synced;
};

enum change { NONE, CREATE, APPEND, SYNC, CUT, REMOVE, REMOVE_FOLDER, MAKE_FOLDER, SYNC_FOLDER };

/* ---- the system's calls, repeated where a signal interrupts them */

static int open_at(int folder, const char *name, int flags) {
    int fd;
    do {
        fd = openat(folder, name, flags | O_CLOEXEC | O_NOFOLLOW, 0666);
    } while (fd < 0 && errno == EINTR);
    /* none of the numbers of the standard streams, where one of these was closed */
    if (fd >= 0 && fd <= 2) {
        int other = fcntl(fd, F_DUPFD_CLOEXEC, 3);
        close(fd);
        return other;
    }
    return fd;
}

static bool sync_bytes(int fd) {
    int done;
    do {
        done = fdatasync(fd);
    } while (done < 0 && errno == EINTR);
    return done == 0;
}

/* Syncs the names right in a folder. */
static bool sync_names(int folder, const char *name) {
    int fd = open_at(folder, *name ? name : ".", O_RDONLY | O_DIRECTORY);
    if (fd < 0)
        return false;
    int done;
    do {
        done = fsync(fd);
    } while (done < 0 && errno == EINTR);
    close(fd);
    return done == 0;
}

static bool write_all(int fd, const uint8_t *bytes, size_t len) {
    while (len > 0) {
        ssize_t put = write(fd, bytes, len);
        if (put < 0 && errno == EINTR)
            continue;
        if (put <= 0)
            return false;
        bytes += put;
        len -= (size_t)put;
    }
    return true;
}

/* The bytes of an open file, where it is one, in memory of their own. */
static uint8_t *read_all(int fd, size_t *len) {
    struct stat found;
    if (fstat(fd, &found) < 0 || !S_ISREG(found.st_mode))
        return NULL;
    size_t size = (size_t)found.st_size, done = 0;
    uint8_t *bytes = malloc(size ? size : 1);
    while (bytes && done < size) {
        ssize_t got = read(fd, bytes + done, size - done);
        if (got < 0 && errno == EINTR)
            continue;
        if (got <= 0) {
            free(bytes);
            return NULL;
        }
        done += (size_t)got;
    }
    *len = size;
    return bytes;
}

/* ---- the changes that the library made */

static bool leave(fjall_database *d) {
    bool done = d->file < 0 || d->is_synced || sync_bytes(d->file);
    if (done && d->file >= 0) {
        close(d->file);
        free(d->name);
        d->file = -1;
        d->name = NULL;
    }
    return done;
}

/* Opens a file to be changed, if it isn't the open one. */
static bool enter(fjall_database *d, const char *name, int flags) {
    if (d->file >= 0 && strcmp(d->name, name) == 0)
        return true;
    if (!leave(d))
        return false;
    char *copy = strdup(name);
    int fd = copy ? open_at(d->folder, name, O_RDWR | O_APPEND | flags) : -1;
    if (fd < 0) {
        free(copy);
        return false;
    }
    d->name = copy;
    d->file = fd;
    d->is_synced = true;
    return true;
}

static bool append(fjall_database *d, const char *name, const uint8_t *bytes, size_t len) {
    if (!enter(d, name, 0))
        return false;
    d->is_synced = false;
    return write_all(d->file, bytes, len);
}

static bool sync_file(fjall_database *d, const char *name) {
    if (!enter(d, name, 0) || !sync_bytes(d->file))
        return false;
    d->is_synced = true;
    return true;
}

static bool cut(fjall_database *d, const char *name, size_t len) {
    if (!enter(d, name, 0))
        return false;
    d->is_synced = false;
    int done;
    do {
        done = ftruncate(d->file, (off_t)len);
    } while (done < 0 && errno == EINTR);
    return done == 0 && sync_file(d, name);
}

static bool is_gone(int done) {
    return done == 0 || errno == ENOENT || errno == ENOTDIR;
}

/* Removes a file. What was written to it and not synced needn't be. */
static bool remove_file(fjall_database *d, const char *name) {
    if (d->file >= 0 && strcmp(d->name, name) == 0) {
        d->is_synced = true;
        leave(d);
    }
    return is_gone(unlinkat(d->folder, name, 0));
}

static bool carry_out(fjall_database *d, enum change kind, const char *name, const uint8_t *bytes, size_t bytes_len, size_t len) {
    switch (kind) {
    case CREATE:
        return enter(d, name, O_CREAT);
    case APPEND:
        return append(d, name, bytes, bytes_len);
    case SYNC:
        return sync_file(d, name);
    case CUT:
        return cut(d, name, len);
    case REMOVE:
        return remove_file(d, name);
    case REMOVE_FOLDER:
        return is_gone(unlinkat(d->folder, name, AT_REMOVEDIR));
    case MAKE_FOLDER:
        return mkdirat(d->folder, name, 0777) == 0 || errno == EEXIST;
    case SYNC_FOLDER:
        return sync_names(d->folder, name);
    default:
        return false;
    }
}

/* Carries out the first change. */
static bool carry_one(fjall_database *d, size_t name_len, size_t bytes_len) {
    char *name = malloc(name_len + 1);
    uint8_t *bytes = malloc(bytes_len ? bytes_len : 1);
    bool done = false;
    if (name && bytes) {
        size_t len = 0;
        uint8_t kind = fjall_c_take_change(&d->engine, (uint8_t *)name, name_len, bytes, bytes_len, &len);
        name[name_len] = 0;
        done = carry_out(d, kind, name, bytes, bytes_len, len);
    }
    free(name);
    free(bytes);
    return done;
}

/* What a call answers, once the folder took what it changed. */
static int32_t settled(fjall_database *d, int32_t answer) {
    size_t name_len, bytes_len;
    while (fjall_c_change_lengths(&d->engine, &name_len, &bytes_len)) {
        if (!carry_one(d, name_len, bytes_len)) {
            d->is_poisoned = true;
            return FJALL_IO;
        }
    }
    return answer;
}

/* ---- opening */

/* Syncs the name at the end of a path, unless the folder that it stands in mustn't be opened. */
static bool sync_name(const char *path) {
    char *above = strdup(path);
    if (!above)
        return false;
    size_t len = strlen(above);
    while (len > 1 && above[len - 1] == '/')
        above[--len] = 0;
    char *slash = strrchr(above, '/');
    if (slash)
        slash[slash == above] = 0;
    int fd = open(slash ? above : ".", O_RDONLY | O_DIRECTORY | O_CLOEXEC);
    bool done = fd < 0 ? errno == EACCES : fsync(fd) == 0;
    if (fd >= 0)
        close(fd);
    free(above);
    return done;
}

/* Makes the folder at a path, and those above it, where they are missing. Each name is synced before the next one is made. */
static bool make_folders(const char *path) {
    char *part = strdup(path);
    bool done = part != NULL && *part != 0;
    for (size_t end = 1; done && end <= strlen(path); end++) {
        if (path[end] != '/' && path[end] != 0)
            continue;
        part[end] = 0;
        done = mkdir(part, 0777) == 0 ? sync_name(part) : errno == EEXIST;
        part[end] = path[end];
    }
    free(part);
    return done;
}

/* Whether nothing stands in the folder yet. */
static bool is_empty(int folder) {
    int fd = open_at(folder, ".", O_RDONLY | O_DIRECTORY);
    DIR *list = fd < 0 ? NULL : fdopendir(fd);
    if (!list) {
        if (fd >= 0)
            close(fd);
        return false;
    }
    bool found = false;
    for (struct dirent *entry; !found && (entry = readdir(list));)
        found = strcmp(entry->d_name, ".") && strcmp(entry->d_name, "..");
    closedir(list);
    return !found;
}

/* Takes the lock of the folder's file `lock`. */
static int32_t take_lock(fjall_database *d) {
    d->lock = open_at(d->folder, "lock", O_RDWR | O_CREAT | O_NONBLOCK);
    if (d->lock < 0)
        return FJALL_IO;
    for (int i = 0; i < 3; i++) {
        if (flock(d->lock, LOCK_EX | LOCK_NB) == 0)
            return 0;
        if (errno != EWOULDBLOCK && errno != EINTR)
            return FJALL_IO;
    }
    return FJALL_LOCKED;
}

static int32_t load_folder(fjall_database *d, const char *name);

/* Tells the library of what stands at a name. Links, pipes and devices are refused. */
static int32_t load_one(fjall_database *d, const char *name) {
    struct stat found;
    if (fstatat(d->folder, name, &found, AT_SYMLINK_NOFOLLOW) < 0)
        return FJALL_IO;
    if (S_ISDIR(found.st_mode)) {
        int32_t answer = fjall_c_put_folder(&d->engine, (const uint8_t *)name, strlen(name));
        return answer ? answer : load_folder(d, name);
    }
    int fd = S_ISREG(found.st_mode) ? open_at(d->folder, name, O_RDONLY) : -1;
    if (fd < 0)
        return FJALL_IO;
    size_t len;
    uint8_t *bytes = read_all(fd, &len);
    close(fd);
    int32_t answer = bytes ? fjall_c_put_file(&d->engine, (const uint8_t *)name, strlen(name), bytes, len) : FJALL_IO;
    free(bytes);
    return answer;
}

/* Tells the library of all that stands in a folder but for the file `lock` of the database's own. */
static int32_t load_folder(fjall_database *d, const char *name) {
    int fd = open_at(d->folder, *name ? name : ".", O_RDONLY | O_DIRECTORY);
    DIR *list = fd < 0 ? NULL : fdopendir(fd);
    if (!list) {
        if (fd >= 0)
            close(fd);
        return FJALL_IO;
    }
    int32_t answer = 0;
    struct dirent *entry;
    while (!answer && (errno = 0, entry = readdir(list))) {
        const char *part = entry->d_name;
        if (!strcmp(part, ".") || !strcmp(part, "..") || (!*name && !strcmp(part, "lock")))
            continue;
        char *whole;
        if (asprintf(&whole, "%s%s%s", name, *name ? "/" : "", part) < 0) {
            answer = FJALL_OUT_OF_MEMORY;
            break;
        }
        answer = load_one(d, whole);
        free(whole);
        errno = 0;
    }
    if (!answer && errno)
        answer = FJALL_IO;
    closedir(list);
    return answer;
}

static void release(fjall_database *d) {
    if (d->engine.at)
        fjall_c_free(d->engine);
    if (d->file >= 0)
        close(d->file);
    free(d->name);
    if (d->folder >= 0)
        close(d->folder);
    if (d->lock >= 0)
        close(d->lock);
    free(d);
}

static int32_t open_folder(fjall_database *d, const char *path) {
    if (!make_folders(path))
        return FJALL_IO;
    d->folder = open(path, O_RDONLY | O_DIRECTORY | O_CLOEXEC);
    /* an opening that was cut off may have made it */
    if (d->folder < 0 || (is_empty(d->folder) && !sync_name(path)))
        return FJALL_IO;
    int32_t answer = take_lock(d);
    if (!answer)
        answer = fjall_c_new(&d->engine);
    if (!answer)
        answer = load_folder(d, "");
    return answer ? answer : settled(d, fjall_c_open(&d->engine));
}

int32_t fjall_open(const char *path, fjall_database **database) {
    fjall_database *d = calloc(1, sizeof *d);
    if (!d)
        return FJALL_OUT_OF_MEMORY;
    d->folder = d->lock = d->file = -1;
    int32_t answer = open_folder(d, path);
    if (answer)
        release(d);
    else
        *database = d;
    return answer;
}

/* ---- the calls */

/* Where a text or a room begins: an empty one may be given as NULL, which the library never is. */
static uint8_t *at(const void *text) {
    static uint8_t nothing;
    return text ? (uint8_t *)text : &nothing;
}

int32_t fjall_keyspace(fjall_database *d, const void *name, size_t name_len, uint64_t *keyspace) {
    return d->is_poisoned ? FJALL_POISONED : settled(d, fjall_c_keyspace(&d->engine, at(name), name_len, keyspace));
}

int32_t fjall_insert(fjall_database *d, uint64_t keyspace, const void *key, size_t key_len, const void *value, size_t value_len) {
    return d->is_poisoned ? FJALL_POISONED : settled(d, fjall_c_insert(&d->engine, keyspace, at(key), key_len, at(value), value_len));
}

int32_t fjall_remove(fjall_database *d, uint64_t keyspace, const void *key, size_t key_len) {
    return d->is_poisoned ? FJALL_POISONED : settled(d, fjall_c_remove(&d->engine, keyspace, at(key), key_len));
}

int32_t fjall_get(fjall_database *d, uint64_t keyspace, const void *key, size_t key_len, void *room, size_t room_len, struct fjall_found *found) {
    return d->is_poisoned ? FJALL_POISONED : settled(d, fjall_c_get(&d->engine, keyspace, at(key), key_len, at(room), room_len, found));
}

int32_t fjall_page(fjall_database *d, uint64_t keyspace, uint8_t start_bound, const void *start, size_t start_len, uint8_t end_bound, const void *end, size_t end_len, bool back, size_t max, void *room, size_t room_len, struct fjall_page *page) {
    if (d->is_poisoned)
        return FJALL_POISONED;
    return settled(d, fjall_c_page(&d->engine, keyspace, start_bound, at(start), start_len, end_bound, at(end), end_len, back, max, at(room), room_len, page));
}

int32_t fjall_snapshot(fjall_database *d, uint64_t *snapshot) {
    return d->is_poisoned ? FJALL_POISONED : settled(d, fjall_c_snapshot(&d->engine, snapshot));
}

int32_t fjall_snapshot_close(fjall_database *d, uint64_t snapshot) {
    return d->is_poisoned ? FJALL_POISONED : settled(d, fjall_c_snapshot_close(&d->engine, snapshot));
}

int32_t fjall_get_at(fjall_database *d, uint64_t snapshot, uint64_t keyspace, const void *key, size_t key_len, void *room, size_t room_len, struct fjall_found *found) {
    return d->is_poisoned ? FJALL_POISONED : settled(d, fjall_c_get_at(&d->engine, snapshot, keyspace, at(key), key_len, at(room), room_len, found));
}

int32_t fjall_page_at(fjall_database *d, uint64_t snapshot, uint64_t keyspace, uint8_t start_bound, const void *start, size_t start_len, uint8_t end_bound, const void *end, size_t end_len, bool back, size_t max, void *room, size_t room_len, struct fjall_page *page) {
    if (d->is_poisoned)
        return FJALL_POISONED;
    return settled(d, fjall_c_page_at(&d->engine, snapshot, keyspace, start_bound, at(start), start_len, end_bound, at(end), end_len, back, max, at(room), room_len, page));
}

int32_t fjall_begin(fjall_database *d, uint64_t *transaction) {
    return d->is_poisoned ? FJALL_POISONED : settled(d, fjall_c_begin(&d->engine, transaction));
}

int32_t fjall_tx_insert(fjall_database *d, uint64_t transaction, uint64_t keyspace, const void *key, size_t key_len, const void *value, size_t value_len) {
    return d->is_poisoned ? FJALL_POISONED : settled(d, fjall_c_tx_insert(&d->engine, transaction, keyspace, at(key), key_len, at(value), value_len));
}

int32_t fjall_tx_remove(fjall_database *d, uint64_t transaction, uint64_t keyspace, const void *key, size_t key_len) {
    return d->is_poisoned ? FJALL_POISONED : settled(d, fjall_c_tx_remove(&d->engine, transaction, keyspace, at(key), key_len));
}

int32_t fjall_tx_get(fjall_database *d, uint64_t transaction, uint64_t keyspace, const void *key, size_t key_len, void *room, size_t room_len, struct fjall_found *found) {
    return d->is_poisoned ? FJALL_POISONED : settled(d, fjall_c_tx_get(&d->engine, transaction, keyspace, at(key), key_len, at(room), room_len, found));
}

int32_t fjall_tx_page(fjall_database *d, uint64_t transaction, uint64_t keyspace, uint8_t start_bound, const void *start, size_t start_len, uint8_t end_bound, const void *end, size_t end_len, bool back, size_t max, void *room, size_t room_len, struct fjall_page *page) {
    if (d->is_poisoned)
        return FJALL_POISONED;
    return settled(d, fjall_c_tx_page(&d->engine, transaction, keyspace, start_bound, at(start), start_len, end_bound, at(end), end_len, back, max, at(room), room_len, page));
}

int32_t fjall_commit(fjall_database *d, uint64_t transaction) {
    return d->is_poisoned ? FJALL_POISONED : settled(d, fjall_c_commit(&d->engine, transaction));
}

int32_t fjall_rollback(fjall_database *d, uint64_t transaction) {
    return d->is_poisoned ? FJALL_POISONED : settled(d, fjall_c_rollback(&d->engine, transaction));
}

int32_t fjall_batch_insert(fjall_database *d, uint64_t keyspace, const void *key, size_t key_len, const void *value, size_t value_len) {
    return fjall_c_batch_insert(&d->engine, keyspace, at(key), key_len, at(value), value_len);
}

int32_t fjall_batch_remove(fjall_database *d, uint64_t keyspace, const void *key, size_t key_len) {
    return fjall_c_batch_remove(&d->engine, keyspace, at(key), key_len);
}

int32_t fjall_batch_commit(fjall_database *d, uint8_t mode) {
    return d->is_poisoned ? FJALL_POISONED : settled(d, fjall_c_batch_commit(&d->engine, mode));
}

void fjall_batch_clear(fjall_database *d) {
    fjall_c_batch_clear(&d->engine);
}

int32_t fjall_persist(fjall_database *d, uint8_t mode) {
    return d->is_poisoned ? FJALL_POISONED : settled(d, fjall_c_persist(&d->engine, mode));
}

int32_t fjall_flush(fjall_database *d, uint64_t keyspace) {
    return d->is_poisoned ? FJALL_POISONED : settled(d, fjall_c_flush(&d->engine, keyspace));
}

int32_t fjall_close(fjall_database *d) {
    int32_t answer = d->is_poisoned ? FJALL_POISONED : settled(d, fjall_c_close(&d->engine));
    release(d);
    return answer;
}

size_t fjall_error_name(int32_t number, char *room, size_t room_len) {
    return number < 0 || number > 255 ? 0 : fjall_c_error_name((uint8_t)number, at(room), room_len);
}
