/* Gives an input to one of the readers behind crates/fjall_readers, as its first byte says, under libFuzzer. The reader is asked twice, once as
   another compiler built it, its names beginning with other_ (where OTHER is defined), and once with a request for memory that fails. It
   aborts where the answers differ, where a reader answers what it never may, holds more memory than its input accounts for, or keeps some. */
#include <malloc.h>
#include <stddef.h>
#include <stdint.h>
#include <stdio.h>
#include <stdlib.h>

#define REFUSED (UINT64_C(1) << 63)
#define OUT_OF_MEMORY (REFUSED + 17)
/* The refusals that a reader may answer where memory is there, by their numbers. */
#define MAY(number) (UINT32_C(1) << (number))
#define IO 1
#define STORAGE 2
#define INVALID_VERSION 4
#define INVALID_TAG 7
/* Behind how many entries find tells whether its key is there. */
#define FOUND (UINT64_C(1) << 32)
/* So many bytes a reader may hold beside MOST_EACH for each byte of its input. */
#define MOST_ALWAYS ((size_t)1 << 18)
#define MOST_EACH ((size_t)512)

typedef uint64_t read_bytes(const uint8_t *input, size_t len);

#ifdef OTHER
#define READER(name) extern read_bytes fjall_read_##name, other_##name;
#define BUILDS(name) #name, fjall_read_##name, other_##name
#else
#define READER(name) extern read_bytes fjall_read_##name;
#define BUILDS(name) #name, fjall_read_##name, fjall_read_##name
#endif

READER(journal) READER(batches) READER(current) READER(records) READER(table) READER(blocks)
READER(find) READER(policy) READER(options) READER(pairs) READER(keyspaces) READER(marker) READER(lines)

static const struct reader {
    const char *name;
    read_bytes *read, *other;
    uint32_t refusals;
    /* How much it may answer for each byte of its input. */
    uint64_t most;
} readers[] = {
    {BUILDS(journal), 0, 1},
    {BUILDS(batches), 0, 1},
    {BUILDS(current), MAY(STORAGE), 1},
    {BUILDS(records), MAY(STORAGE), 6},
    {BUILDS(table), MAY(STORAGE), 1},
    {BUILDS(blocks), MAY(STORAGE), 1},
    {BUILDS(policy), MAY(IO) | MAY(INVALID_TAG), 1},
    {BUILDS(options), MAY(STORAGE), REFUSED},
    {BUILDS(pairs), MAY(STORAGE), 1},
    {BUILDS(marker), MAY(INVALID_VERSION), 1},
    {BUILDS(lines), 0, 1},
    {BUILDS(find), MAY(STORAGE), FOUND},
    {BUILDS(keyspaces), MAY(STORAGE), 1},
};

/* Memory while a reader runs: requests so far, the one that fails, and what is held. */
static struct {
    int is_counting;
    size_t asked, failing, held, highest;
    long blocks;
} memory;

extern void *__real_malloc(size_t size);
extern void *__real_realloc(void *old, size_t size);
extern void __real_free(void *block);

static int fails(void)
{
    memory.asked += 1;
    return memory.asked == memory.failing;
}

static void *took(void *block)
{
    if (block) {
        memory.blocks += 1;
        memory.held += malloc_usable_size(block);
        if (memory.held > memory.highest)
            memory.highest = memory.held;
    }
    return block;
}

static void gives_back(void *block)
{
    if (block) {
        memory.blocks -= 1;
        memory.held -= malloc_usable_size(block);
    }
}

void *__wrap_malloc(size_t size)
{
    if (!memory.is_counting)
        return __real_malloc(size);
    return fails() ? NULL : took(__real_malloc(size));
}

void *__wrap_realloc(void *old, size_t size)
{
    void *block;
    size_t was;
    if (!memory.is_counting)
        return __real_realloc(old, size);
    if (fails())
        return NULL;
    was = old ? malloc_usable_size(old) : 0;
    block = __real_realloc(old, size);
    if (block) {
        memory.held -= was;
        memory.blocks -= old != NULL;
        took(block);
    }
    return block;
}

void __wrap_free(void *block)
{
    if (memory.is_counting)
        gives_back(block);
    __real_free(block);
}

static void stop(const struct reader *reader, const char *what, uint64_t answer, uint64_t other)
{
    fprintf(stderr, "%s %s: %llx, %llx\n", reader->name, what, (unsigned long long)answer, (unsigned long long)other);
    abort();
}

/* What a build of the reader answers, where the request for memory of this number fails, or none with 0. */
static uint64_t ask(const struct reader *reader, read_bytes *read, const uint8_t *input, size_t len, size_t failing)
{
    uint64_t answer;
    memory.asked = memory.held = memory.highest = 0;
    memory.blocks = 0;
    memory.failing = failing;
    memory.is_counting = 1;
    answer = read(input, len);
    memory.is_counting = 0;
    if (memory.blocks != 0 || memory.held != 0)
        stop(reader, "keeps memory", (uint64_t)memory.blocks, memory.held);
    if (memory.highest > MOST_ALWAYS + MOST_EACH * len)
        stop(reader, "holds too much memory", memory.highest, len);
    return answer;
}

/* Whether a reader may answer this to an input of that length. */
static int is_due(const struct reader *reader, uint64_t answer, size_t len)
{
    if (answer >= REFUSED)
        return answer < REFUSED + 32 && (reader->refusals & MAY(answer - REFUSED)) != 0;
    return reader->most == REFUSED || answer <= reader->most * len + 1;
}

int LLVMFuzzerTestOneInput(const uint8_t *data, size_t size)
{
    const struct reader *reader;
    uint64_t answer, other;
    size_t asked, at, failing = 0;
    if (size == 0)
        return 0;
    reader = &readers[data[0] % (sizeof readers / sizeof readers[0])];
    data += 1;
    size -= 1;
    answer = ask(reader, reader->read, data, size, 0);
    asked = memory.asked;
    if (!is_due(reader, answer, size))
        stop(reader, "answers", answer, size);
    other = ask(reader, reader->read, data, size, 0);
    if (other != answer || memory.asked != asked)
        stop(reader, "answers otherwise when asked again", answer, other);
    other = ask(reader, reader->other, data, size, 0);
    if (other != answer)
        stop(reader, "answers otherwise by another compiler", answer, other);
    if (asked == 0)
        return 0;
    for (at = 0; at < size; at++)
        failing = 31 * failing + data[at];
    other = ask(reader, reader->read, data, size, 1 + failing % asked);
    /* A request for more than is wanted at once may fail and be made again for less. */
    if (other != OUT_OF_MEMORY && other != answer)
        stop(reader, "answers otherwise without memory", answer, other);
    return 0;
}
