/*
 * Kantsufel, a bench for the four slots of Simpson's mechanism: the calls for a program in C99 or C++, which links libhost.a.
 *
 *   kantsufel_run    runs a move file and writes the log of what was called and returned
 *   kantsufel_judge  judges a log and writes at which write each finished read is placed
 *
 * Numbers in files. A number is below 2^32. It is stored in groups of seven bits, lowest group first, with the top bit set on every byte
 * but the last: 127 is 7f, 128 is 80 01. Only the shortest form is accepted. An item is n words, each of which is a number.
 *
 * A move file has n (1 to 8), the initial item, the count of items (0 to 255), the items, the count of moves (0 to 4,096), the moves.
 * Move 0 is the writer's, move 1 the reader's.
 *
 * A log has n (1 to 8), the initial item, the count of events (0 to 4,096), the events. Event 0 is a write called, and its n words
 * follow; 1 is a write returned; 2 is a read called; 3 is a read returned, and its n words follow.
 *
 * The answer of a call is one 64-bit number: a number of its table times 2^32, plus a place. kantsufel_number and kantsufel_place take
 * it apart. Number 0 is accepted, every other is a refusal. A place that names a byte counts the bytes of the input from 0.
 *
 * The output. A refusal leaves every byte of it as it was. An accepted call writes only the first part of it, of exactly the needed
 * size, and leaves the rest as it was.
 *
 * What the caller must keep, in both calls:
 *   - No pointer is null, also where its length is 0. Any other pointer will do there.
 *   - As many bytes as the length says can be read at the input, and written at the output. Neither needs an alignment.
 *   - Input and output do not overlap.
 *   - While the call runs, nobody else writes to the input, and nobody else reads or writes the output.
 *
 * What the calls keep. For every input they end, and they touch nothing outside input and output. They hold no state, allocate nothing
 * and are reentrant: threads may call at the same time, each with an output of its own. A call takes at most KANTSUFEL_STACK_MOST bytes
 * of stack, with memcpy and memset, which are all that it calls. That number is measured on x86-64 and not proved. A dynamic linker that
 * looks the two up within the call takes stack of its own on top.
 */
#ifndef KANTSUFEL_H
#define KANTSUFEL_H

#include <stddef.h>
#include <stdint.h>

#ifdef __cplusplus
extern "C" {
#endif

/* The numbers of an answer. */
enum {
    KANTSUFEL_ACCEPTED = 0,
    KANTSUFEL_LONG = 1,
    KANTSUFEL_CUT = 2,
    KANTSUFEL_FORM = 3,
    KANTSUFEL_WIDTH = 4,
    KANTSUFEL_COUNT = 5,
    KANTSUFEL_CODE = 6,
    KANTSUFEL_TRAILING = 7,
    KANTSUFEL_ITEMS = 8,
    KANTSUFEL_TURN = 9,
    KANTSUFEL_ROOM = 10,
    KANTSUFEL_NO_PLACE = 11
};

#define KANTSUFEL_INPUT_MOST 24576 /* bytes of a move file or a log */
#define KANTSUFEL_LOG_MOST 24576   /* bytes of the log that a run writes: with so many lent, ROOM is never given */
#define KANTSUFEL_READS_MOST 2048  /* finished reads of a log: with so many entries lent, ROOM is never given */
#define KANTSUFEL_ENTRY_BYTES 4    /* bytes of an entry */
#define KANTSUFEL_STACK_MOST 32768 /* bytes of stack that a call takes */

/*
 * Runs a move file: its moves in list order from a fresh machine, whose four slots hold the initial item. A write that is called takes
 * the next item. Items may be left over.
 *
 * In:   moves, moves_len  the move file
 * Out:  log, log_len      the first part gets the log. A log has 3 bytes at least and KANTSUFEL_LOG_MOST (24,576) at most.
 *
 *   No.  Name      Given when                                                     Place
 *    0   ACCEPTED  the log is written                                             its length in bytes
 *    1   LONG      the move file has more than 24,576 bytes                       24,576
 *    2   CUT       the move file ends before a number does                        the number's first byte
 *    3   FORM      a number is above 2^32-1, has a fifth byte with the top bit    the number's first byte
 *                  set, or is not in its shortest form
 *    4   WIDTH     n is outside 1 to 8                                            its first byte, which is 0
 *    5   COUNT     there are more than 255 items, or more than 4,096 moves        the count's first byte
 *    6   CODE      a move is neither 0 nor 1                                      the move's first byte
 *    7   TRAILING  bytes follow the last move                                     the first of them
 *    8   ITEMS     the writer moves, is idle and no item is left                  the number of that move, from 0
 *   10   ROOM      log_len is less than the length of the log                     the length of the log in bytes
 *
 * Faults are looked for in this order: LONG; then the file is read from left to right, and the first fault of 2 to 7 is given; then ITEMS,
 * at the first such move; then ROOM. So with log_len 0 a move file without a fault is answered ROOM and the length of its log.
 *
 * kantsufel_judge accepts every log that a run writes, if an entry is lent for each finished read.
 */
uint64_t kantsufel_run(const uint8_t *moves, size_t moves_len, uint8_t *log, size_t log_len);

/*
 * Judges a log: gives each finished read the number of a write, or says which is the first that cannot have one.
 *
 * Writes are numbered from 1 in order of call, and 0 stands for the initial item. A read's number is at least the number of writes that
 * returned before it was called, at most the number of writes called before it returned, and not below that of the read before; and that
 * write's item equals the read's in all n words. Numbers that fit all finished reads so are a placing. Of all placings the earliest is
 * given: at every read it has the smallest number that any of them has there.
 *
 * In:   log, log_len          the log
 * Out:  entries, entries_len  the first part gets an entry for each finished read, in order. An entry is the number of a write in
 *                             KANTSUFEL_ENTRY_BYTES (4) bytes, lowest first; kantsufel_entry reads it. Room is counted in whole
 *                             entries: entries_len divided by 4, rounded down. At most KANTSUFEL_READS_MOST (2,048) reads finish in a
 *                             log, so 8,192 bytes are always enough.
 *
 *   No.  Name      Given when                                                     Place
 *    0   ACCEPTED  a placing is written                                           how many reads it places
 *    1   LONG      the log has more than 24,576 bytes                             24,576
 *    2   CUT       the log ends before a number does                              the number's first byte
 *    3   FORM      a number is above 2^32-1, has a fifth byte with the top bit    the number's first byte
 *                  set, or is not in its shortest form
 *    4   WIDTH     n is outside 1 to 8                                            its first byte, which is 0
 *    5   COUNT     there are more than 4,096 events                               the count's first byte
 *    6   CODE      an event's code is none of 0 to 3                              the code's first byte
 *    7   TRAILING  bytes follow the last event                                    the first of them
 *    9   TURN      a call while that side has one open, or a return while it      the number of that event, from 0
 *                  has none
 *   10   ROOM      fewer entries are lent than reads finish                       how many entries are needed
 *   11   NO PLACE  no placing exists                                              the number of a read, from 1: the first for which the
 *                                                                                 reads up to it have none
 *
 * Faults are looked for in this order: LONG; then the log is read from left to right, and the first fault of 2 to 7 is given; then TURN, at
 * the first such event; then ROOM; then NO PLACE. So with entries_len 0 a log without a fault is answered ROOM and how many entries it
 * needs, or is accepted where no read finishes.
 */
uint64_t kantsufel_judge(const uint8_t *log, size_t log_len, uint8_t *entries, size_t entries_len);

/* The number of an answer. */
static inline uint32_t kantsufel_number(uint64_t answer)
{
    return (uint32_t)(answer >> 32);
}

/* The place of an answer. */
static inline uint32_t kantsufel_place(uint64_t answer)
{
    return (uint32_t)(answer & 0xffffffffu);
}

/* The number of a write that stands in the four bytes of an entry. */
static inline uint32_t kantsufel_entry(const uint8_t *entry)
{
    return (uint32_t)entry[0] | (uint32_t)entry[1] << 8 | (uint32_t)entry[2] << 16 | (uint32_t)entry[3] << 24;
}

#ifdef __cplusplus
}
#endif

#endif
