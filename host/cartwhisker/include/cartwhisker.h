/*
 * Cartwhisker: is a message the SSZ encoding of a value under a lent layout, and where are its items?
 *
 * Link with libcartwhisker.a (`rt lib` in crates/cartwhisker); of the C library it takes nothing, and it
 * needs no start-up.
 * Both calls are proved to answer document 01's rules, with document 02's lists and vectors, for
 * every input. They keep nothing between calls, allocate nothing and may be called from any number
 * of threads at a time.
 *
 * What the caller owes, as for any C function on memory:
 *   - each pointer is valid for its length; it is not null, even where the length is 0 (any
 *     address that is not null will do there);
 *   - `records` overlaps neither `layout` nor `message`, and nobody else writes to any of the three
 *     during the call.
 *
 * The layout is a table of 32-bit words, and the records are such words too: little-endian bytes
 * at any address. The pointers need not be aligned.
 */
#ifndef CARTWHISKER_H
#define CARTWHISKER_H

#include <stddef.h>
#include <stdint.h>

#ifdef __cplusplus
extern "C" {
#endif

/* An answer has five numbers; the last argument picks the one that is returned. */
enum {
    CARTWHISKER_NUMBER = 0, /* 0: accepted; else the number of the refusal */
    CARTWHISKER_A = 1,      /* the refusal's first number; on success 0, for a listing its records */
    CARTWHISKER_B = 2,      /* the refusal's second number */
    CARTWHISKER_TYPE = 3,   /* the type of the item that was refused; 0 for refusals 20 to 22 */
    CARTWHISKER_START = 4   /* the first byte of that item in the message; 0 for 20 to 22 */
};

/* Bytes of a record: type, start, end, each a little-endian word of 32 bits. */
#define CARTWHISKER_RECORD 12

/*
 * Checks the message against the layout. A `which` above 4 gives 0.
 *
 *   if (cartwhisker_check(layout, layout_len, message, message_len, CARTWHISKER_NUMBER) == 0)
 *       ... the message is the encoding of exactly one value ...
 */
uint64_t cartwhisker_check(const uint8_t *layout, size_t layout_len,
                           const uint8_t *message, size_t message_len,
                           uint32_t which);

/*
 * Lists the message's items in preorder, a record for each. There is room for records_len / 12
 * records; too little room is refusal 22 with (records needed, room), which comes last, so that a
 * first call with no room asks how many are needed. A refusal writes nothing; a success writes its
 * records and keeps what is behind them. Each call with `which` from 0 to 4 writes them; a `which`
 * above 4 gives 0 and writes nothing.
 */
uint64_t cartwhisker_list(const uint8_t *layout, size_t layout_len,
                          const uint8_t *message, size_t message_len,
                          uint8_t *records, size_t records_len,
                          uint32_t which);

#ifdef __cplusplus
}
#endif

#endif
