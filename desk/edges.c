/*
 * Makes both calls on every sample with an input and an output that lie at the edge of a page that cannot be touched, so that a byte
 * read or written outside what was lent ends the program. Answer and output are compared with those of an ordinary buffer.
 * Built by: cc -std=c99 desk/edges.c target/staticlib/libhost.a -o target/edges
 * Run by: target/edges samples
 */
#define _DEFAULT_SOURCE /* for MAP_ANONYMOUS */
#include "kantsufel.h"

#include <dirent.h>
#include <stdbool.h>
#include <stdio.h>
#include <stdlib.h>
#include <string.h>
#include <sys/mman.h>
#include <unistd.h>

/* No sample and no output has more bytes. */
#define BYTES_MOST 32768

/* One of the two calls, and what is known of it. */
struct call {
    uint64_t (*make)(const uint8_t *, size_t, uint8_t *, size_t);
    size_t unit; /* bytes of what the place of an accepted answer counts */
    size_t most; /* bytes with which ROOM is never given */
};

/* Bytes that can be used, between two pages that cannot be touched. */
struct fenced {
    uint8_t *bytes;
    size_t len;
};

/* Where what is lent lies between the two pages. */
enum edge { AT_START, AT_END, EDGES };

/* A call on the sample with so many bytes of output that hold the fill, and its answer with an ordinary buffer. */
struct trial {
    const struct call *call;
    size_t room;
    uint8_t fill;
    uint64_t answer;
};

static const struct call calls[] = {
    {kantsufel_run, 1, KANTSUFEL_LOG_MOST},
    {kantsufel_judge, KANTSUFEL_ENTRY_BYTES, KANTSUFEL_READS_MOST * KANTSUFEL_ENTRY_BYTES},
};

/* Each output is lent twice, so that a byte that is written differs from one of the two. */
static const uint8_t fills[] = {0x55, 0xaa};

static const char *sample_name = "before the first sample";
static uint8_t sample[BYTES_MOST];
static size_t sample_len;

static uint8_t ordinary[BYTES_MOST];
static struct fenced input, output;
static unsigned long calls_made;

static void fail(const char *what)
{
    printf("edges: %s: %s\n", sample_name, what);
    exit(1);
}

static struct fenced fence(void)
{
    size_t page = (size_t)sysconf(_SC_PAGESIZE);
    size_t len = (BYTES_MOST + page - 1) / page * page;
    uint8_t *all = mmap(NULL, page + len + page, PROT_NONE, MAP_PRIVATE | MAP_ANONYMOUS, -1, 0);
    if (all == MAP_FAILED || mprotect(all + page, len, PROT_READ | PROT_WRITE) != 0) {
        fail("no pages to lend");
    }
    return (struct fenced){all + page, len};
}

static uint8_t *at_edge(struct fenced fenced, enum edge edge, size_t len)
{
    return edge == AT_START ? fenced.bytes : fenced.bytes + fenced.len - len;
}

/* Puts the sample at an edge, where it can only be read. */
static const uint8_t *lend_sample(enum edge edge)
{
    uint8_t *lent = at_edge(input, edge, sample_len);
    if (mprotect(input.bytes, input.len, PROT_READ | PROT_WRITE) != 0) {
        fail("it cannot be lent");
    }
    memcpy(lent, sample, sample_len);
    if (mprotect(input.bytes, input.len, PROT_READ) != 0) {
        fail("it cannot be lent for reading only");
    }
    return lent;
}

static bool is_filled(const uint8_t *bytes, size_t len, uint8_t fill)
{
    for (size_t i = 0; i < len; i++) {
        if (bytes[i] != fill) {
            return false;
        }
    }
    return true;
}

static uint64_t make(const struct trial *trial, const uint8_t *in, uint8_t *out)
{
    calls_made++;
    return trial->call->make(in, sample_len, out, trial->room);
}

/* The bytes that an answer says were written. */
static size_t written(const struct call *call, uint64_t answer)
{
    return kantsufel_number(answer) == KANTSUFEL_ACCEPTED ? call->unit * kantsufel_place(answer) : 0;
}

/* Makes the call with an ordinary buffer. Behind the written part it must be as it was. */
static uint64_t answer_in_ordinary(const struct trial *trial)
{
    memset(ordinary, trial->fill, sizeof ordinary);
    uint64_t answer = make(trial, sample, ordinary);
    size_t end = written(trial->call, answer);
    if (end > trial->room || !is_filled(ordinary + end, sizeof ordinary - end, trial->fill)) {
        fail("a byte is altered behind the written part");
    }
    return answer;
}

/* Makes the call at two edges. Answer and output must be those of the ordinary buffer, and all other bytes as they were. */
static void compare_at(const struct trial *trial, enum edge in_edge, enum edge out_edge)
{
    uint8_t *out = at_edge(output, out_edge, trial->room);
    size_t before = (size_t)(out - output.bytes), after = output.len - before - trial->room;
    memset(output.bytes, trial->fill, output.len);
    if (make(trial, lend_sample(in_edge), out) != trial->answer) {
        fail("the answer is not that with an ordinary buffer");
    }
    if (memcmp(out, ordinary, trial->room) != 0) {
        fail("the output is not that in an ordinary buffer");
    }
    if (!is_filled(output.bytes, before, trial->fill) || !is_filled(out + trial->room, after, trial->fill)) {
        fail("a byte is altered outside the output");
    }
}

/* Makes the call with the output at each edge. */
static void compare_outputs(const struct trial *trial, enum edge in_edge)
{
    for (enum edge out_edge = AT_START; out_edge < EDGES; out_edge++) {
        compare_at(trial, in_edge, out_edge);
    }
}

static void compare_at_edges(struct trial trial)
{
    trial.answer = answer_in_ordinary(&trial);
    for (enum edge in_edge = AT_START; in_edge < EDGES; in_edge++) {
        compare_outputs(&trial, in_edge);
    }
}

static void compare_fills(const struct call *call, size_t room)
{
    for (size_t i = 0; i < sizeof fills; i++) {
        compare_at_edges((struct trial){call, room, fills[i], 0});
    }
}

/* Makes a call with no room, one byte less than is needed, what is needed, one byte more, and the most. */
static void compare_rooms(const struct call *call)
{
    size_t needed = written(call, answer_in_ordinary(&(struct trial){call, call->most, fills[0], 0}));
    size_t rooms[] = {0, needed > 0 ? needed - 1 : 0, needed, needed + 1, call->most};
    for (size_t i = 0; i < sizeof rooms / sizeof rooms[0]; i++) {
        compare_fills(call, rooms[i]);
    }
}

static void read_sample(const char *directory)
{
    char path[4096];
    int len = snprintf(path, sizeof path, "%s/%s", directory, sample_name);
    FILE *file = len > 0 && (size_t)len < sizeof path ? fopen(path, "rb") : NULL;
    if (file == NULL) {
        fail("it cannot be opened");
    }
    sample_len = fread(sample, 1, sizeof sample, file);
    if (ferror(file) || !feof(file) || fclose(file) != 0) {
        fail("it cannot be read, or is too long");
    }
}

static bool ends_with(const char *name, const char *end)
{
    size_t name_len = strlen(name), end_len = strlen(end);
    return name_len >= end_len && strcmp(name + name_len - end_len, end) == 0;
}

/* Makes both calls on every move file and every log of a directory, and gives how many files these are. */
static unsigned long compare_all(const char *directory)
{
    unsigned long samples = 0;
    DIR *listing = opendir(directory);
    if (listing == NULL) {
        fail("the directory cannot be opened");
    }
    for (struct dirent *entry = readdir(listing); entry != NULL; entry = readdir(listing)) {
        if (ends_with(entry->d_name, ".moves") || ends_with(entry->d_name, ".log")) {
            sample_name = entry->d_name;
            read_sample(directory);
            compare_rooms(&calls[0]);
            compare_rooms(&calls[1]);
            samples++;
        }
    }
    closedir(listing);
    return samples;
}

int main(int count, char **arguments)
{
    if (count != 2) {
        fail("the samples directory is wanted as the argument");
    }
    input = fence();
    output = fence();
    unsigned long samples = compare_all(arguments[1]);
    if (samples == 0) {
        fail("the directory has none");
    }
    printf("edges: %lu calls on %lu samples, none touched a byte outside what it was lent\n", calls_made, samples);
    return 0;
}
