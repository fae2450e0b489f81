/*
 * An example of both calls, to start from: two move files are run and their logs judged, and then four calls are refused.
 * Built by: cc -std=c99 desk/example.c target/staticlib/libhost.a -o target/example
 * Run by: target/example, which prints desk/example.stdout. Its exit status is 0 only if every answer and every output is as expected.
 */
#include "kantsufel.h"

#include <inttypes.h>
#include <stdbool.h>
#include <stdio.h>
#include <string.h>

/* What an output holds before a call that is to be refused. */
#define FILL 0x55

/* A move file, the log that its run writes, and the write at which the log's one read is placed. */
struct story {
    const char *title;
    const uint8_t *moves;
    size_t moves_len;
    const uint8_t *log;
    size_t log_len;
    uint32_t write;
};

/* A call that is to be refused: its input, the bytes lent for its output, and number and place of the answer. */
struct refusal {
    const char *title;
    uint64_t (*call)(const uint8_t *, size_t, uint8_t *, size_t);
    const uint8_t *input;
    size_t len;
    size_t room;
    uint32_t number;
    uint32_t place;
};

/* P6 of 01: one word, initially 0, and the items 7 and 8. A read is called after the first write, and returns while the second is open. */
static const uint8_t open_write_moves[] = {1, 0, 2, 7, 8, 13, 0, 0, 0, 0, 0, 1, 0, 0, 0, 1, 0, 1, 1};
static const uint8_t open_write_log[] = {1, 0, 5, 0, 7, 1, 2, 0, 8, 3, 8};

/* One word, initially 0, and the items 7 and 7. Both are written, and then one read is made: the log is P8 of 01. */
static const uint8_t equal_cards_moves[] = {1, 0, 2, 7, 7, 14, 0, 0, 0, 0, 0, 0, 0, 0, 0, 0, 1, 1, 1, 1};
static const uint8_t equal_cards_log[] = {1, 0, 6, 0, 7, 1, 0, 7, 1, 2, 3, 7};

/* P7 of 01: 7 was written and the write returned, but a read that was called later returned the initial 0. */
static const uint8_t stale_log[] = {1, 0, 4, 0, 7, 1, 2, 3, 0};

static const struct story stories[] = {
    {"a read of a write that is still open",
     open_write_moves, sizeof open_write_moves, open_write_log, sizeof open_write_log, 2},
    {"two equal cards: the read took the second, not the first",
     equal_cards_moves, sizeof equal_cards_moves, equal_cards_log, sizeof equal_cards_log, 2},
};

/* An empty input has length 0, but its pointer is not null. Three bytes have no room for an entry. */
static const struct refusal refusals[] = {
    {"run of an empty input", kantsufel_run, open_write_moves, 0, KANTSUFEL_LOG_MOST, KANTSUFEL_CUT, 0},
    {"run with room one byte short", kantsufel_run, open_write_moves, sizeof open_write_moves, 10, KANTSUFEL_ROOM, 11},
    {"judge with room one byte short", kantsufel_judge, open_write_log, sizeof open_write_log, 3, KANTSUFEL_ROOM, 1},
    {"judge of a log without a place", kantsufel_judge, stale_log, sizeof stale_log, KANTSUFEL_ENTRY_BYTES, KANTSUFEL_NO_PLACE, 1},
};

static uint8_t log_bytes[KANTSUFEL_LOG_MOST];
static uint8_t entries[KANTSUFEL_READS_MOST * KANTSUFEL_ENTRY_BYTES];

static const char *name_of(uint32_t number)
{
    static const char *const names[] = {"accepted", "LONG", "CUT", "FORM", "WIDTH", "COUNT", "CODE", "TRAILING", "ITEMS", "TURN", "ROOM",
                                        "NO PLACE"};
    return number < sizeof names / sizeof names[0] ? names[number] : "not in the table";
}

static void print_answer(const char *what, uint64_t answer)
{
    uint32_t number = kantsufel_number(answer);
    printf("%s: %" PRIu32 " %s, place %" PRIu32 "\n", what, number, name_of(number), kantsufel_place(answer));
}

static void print_log(const uint8_t *log, size_t len)
{
    printf("log:");
    for (size_t i = 0; i < len; i++) {
        printf(" %02x", log[i]);
    }
    printf("\n");
}

static void print_placing(uint32_t reads)
{
    for (uint32_t i = 0; i < reads; i++) {
        printf("read %" PRIu32 " is placed at write %" PRIu32 "\n", i + 1, kantsufel_entry(entries + KANTSUFEL_ENTRY_BYTES * i));
    }
}

static bool is_answer(uint64_t answer, uint32_t number, size_t place)
{
    return kantsufel_number(answer) == number && kantsufel_place(answer) == place;
}

/* Runs a move file and prints its log. The log must be the expected one. */
static bool run(const struct story *story)
{
    uint64_t answer = kantsufel_run(story->moves, story->moves_len, log_bytes, sizeof log_bytes);
    print_answer("run", answer);
    if (!is_answer(answer, KANTSUFEL_ACCEPTED, story->log_len)) {
        return false;
    }
    print_log(log_bytes, kantsufel_place(answer));
    return memcmp(log_bytes, story->log, story->log_len) == 0;
}

/* Judges the log of the run and prints the placing. The one read must be placed at the expected write. */
static bool judge(const struct story *story)
{
    uint64_t answer = kantsufel_judge(log_bytes, story->log_len, entries, sizeof entries);
    print_answer("judge", answer);
    if (!is_answer(answer, KANTSUFEL_ACCEPTED, 1)) {
        return false;
    }
    print_placing(kantsufel_place(answer));
    return kantsufel_entry(entries) == story->write;
}

static bool tell(const struct story *story)
{
    printf("-- %s\n", story->title);
    return run(story) && judge(story);
}

static bool is_filled(const uint8_t *bytes, size_t len)
{
    for (size_t i = 0; i < len; i++) {
        if (bytes[i] != FILL) {
            return false;
        }
    }
    return true;
}

/* Makes a call that is to be refused so. The output must keep its bytes. */
static bool is_refused(const struct refusal *refusal)
{
    memset(log_bytes, FILL, sizeof log_bytes);
    uint64_t answer = refusal->call(refusal->input, refusal->len, log_bytes, refusal->room);
    print_answer(refusal->title, answer);
    return is_answer(answer, refusal->number, refusal->place) && is_filled(log_bytes, sizeof log_bytes);
}

static bool tell_all(void)
{
    for (size_t i = 0; i < sizeof stories / sizeof stories[0]; i++) {
        if (!tell(&stories[i])) {
            return false;
        }
    }
    return true;
}

static bool refuse_all(void)
{
    printf("-- refusals, which leave the output as it was\n");
    for (size_t i = 0; i < sizeof refusals / sizeof refusals[0]; i++) {
        if (!is_refused(&refusals[i])) {
            return false;
        }
    }
    return true;
}

int main(void)
{
    bool expected = tell_all() && refuse_all();
    puts(expected ? "all as expected" : "not as expected");
    return expected && fflush(stdout) == 0 && !ferror(stdout) ? 0 : 1;
}
