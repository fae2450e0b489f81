/*
 * Measures how much stack the two calls take: makes both on each file, in a thread whose stack was filled, and looks how far down the
 * fill is gone. It must not be more than the header says.
 * Built by: cc -std=c99 -pthread -Wl,-z,now desk/stack.c target/staticlib/libhost.a -o target/stack
 * Run by: target/stack FILE...
 */
#define _POSIX_C_SOURCE 200809L /* for pthread_attr_setstack and posix_memalign */
#include "kantsufel.h"

#include <pthread.h>
#include <stdio.h>
#include <stdlib.h>
#include <string.h>

#define PAGE 4096
#define STACK_BYTES (4 * KANTSUFEL_STACK_MOST)

static uint64_t (*const calls[])(const uint8_t *, size_t, uint8_t *, size_t) = {kantsufel_run, kantsufel_judge};

/* The stack is filled twice, so that a byte that is written differs from one of the two. */
static const uint8_t fills[] = {0x55, 0xaa};

static uint8_t file[KANTSUFEL_INPUT_MOST + 1], output[KANTSUFEL_LOG_MOST];
static size_t file_len;
static uint8_t *stack;

/* What a thread is to call, what its stack holds, and the bytes of stack that the call took. */
struct measure {
    size_t call;
    uint8_t fill;
    size_t taken;
};

static void fail(const char *what)
{
    printf("stack: %s\n", what);
    exit(1);
}

static void *take_measure(void *argument)
{
    struct measure *measure = argument;
    uint8_t here = 0;
    calls[measure->call](file, file_len, output, sizeof output);
    uint8_t *lowest = stack;
    while (*lowest == measure->fill) {
        lowest++;
    }
    measure->taken = (size_t)(&here - lowest);
    return NULL;
}

/* The bytes of stack that a call takes on the file, in a thread of its own. */
static size_t taken_by(size_t call, uint8_t fill)
{
    struct measure measure = {call, fill, 0};
    pthread_attr_t attributes;
    pthread_t thread;
    memset(stack, fill, STACK_BYTES);
    if (pthread_attr_init(&attributes) != 0 || pthread_attr_setstack(&attributes, stack, STACK_BYTES) != 0
        || pthread_create(&thread, &attributes, take_measure, &measure) != 0 || pthread_join(thread, NULL) != 0) {
        fail("no thread");
    }
    pthread_attr_destroy(&attributes);
    return measure.taken;
}

static void read_file(const char *path)
{
    FILE *from = fopen(path, "rb");
    if (from == NULL) {
        fail(path);
    }
    file_len = fread(file, 1, sizeof file, from);
    if (ferror(from) || fclose(from) != 0) {
        fail(path);
    }
}

/* Raises the most that a call took by what it takes on the file. */
static void raise_most(size_t call, size_t *most)
{
    for (size_t i = 0; i < sizeof fills; i++) {
        size_t taken = taken_by(call, fills[i]);
        *most = taken > *most ? taken : *most;
    }
}

int main(int count, char **arguments)
{
    size_t most[] = {0, 0};
    void *pages = NULL;
    if (count < 2) {
        fail("files are wanted as arguments");
    }
    if (posix_memalign(&pages, PAGE, STACK_BYTES) != 0) {
        fail("no memory for a stack");
    }
    stack = pages;
    for (int i = 1; i < count; i++) {
        read_file(arguments[i]);
        raise_most(0, &most[0]);
        raise_most(1, &most[1]);
    }
    free(pages);
    printf("stack: a run took at most %zu bytes and the judge %zu, on %d files; the header says %d\n", most[0], most[1], count - 1,
           KANTSUFEL_STACK_MOST);
    return most[0] <= KANTSUFEL_STACK_MOST && most[1] <= KANTSUFEL_STACK_MOST ? 0 : 1;
}
