/* The proved bookkeeping of public warnings in a radio unit: C surface of libpws.a.
 *
 * All tables, records, answers and lists are byte buffers of the caller's, big-endian, laid out as documents 01 and 02 say;
 * messages are F1AP's own, in aligned PER. No function allocates, keeps a pointer, blocks or throws; each comes back for every
 * content and every length of its buffers.
 *
 * What the caller must see to (nothing else can be asked for):
 *   - a pointer is never null, not even where its length is 0: lend the address of any byte then;
 *   - the buffers of one call do not overlap;
 *   - nobody else touches a buffer during the call.
 *
 * Versions stand in the bytes 3 and 4:
 *   tables   2, with cells of 120 bytes. Tables of older libraries are of version 1, with cells of 104: see pws_convert
 *   records  1 and 2, of one layout. Version 1 has periods up to 4095, version 2 up to 131,071; pws_write writes version 2
 *   answers  1
 *
 * A number other than 0 is a refusal; the length is then 0 and no byte of any buffer has changed:
 *   1  table shorter than 5 bytes, wrong mark or version: pws_apply takes version 2 alone, pws_convert version 1 alone
 *   2  table wrong in any other way
 *   3  record shorter than 26 bytes, wrong mark or version
 *   4  more than 512 items, or the record's length is not 26 + 8 n
 *   5  unknown kind, a flag, area or item count that is not allowed, a zero field that is not zero
 *   6  Write-Replace with a period above 131,071, or above 4095 in a version 1 record, or with a SIB kind that is not 6 to 8;
 *      an item too large for its area
 *   7  Cancel with neither flag 2 nor flag 4
 *   8  output buffer too short
 *   9  heads: length no multiple of 24, not 1 to 512 of them, a bad head or wrong order
 *  10  list damaged: it ends inside a length or inside a segment; for the writer, the lengths don't add up to the bytes, or
 *      one is above 65,535
 *  11  more than 63 segments in the list
 *  12  no segment k: the list ends before it
 *  13  message cut short or badly encoded: bytes behind an end, a fragmented length, a set padding or extension bit, and whatever
 *      else an encoder of aligned PER cannot have written; of another message only the outer frame is judged
 *  14  another message
 *  15  an unknown element marked reject, at whatever depth
 *  16  a mandatory element is missing, a list item's own among them; or a known element is repeated or out of order
 *  17  for the writer of responses, bytes that no accepted Write-Replace or Cancel could have as its answer under any table; for
 *      their reader, cells that don't ascend strictly
 */
#ifndef PWS_H
#define PWS_H

/* Without this a linker would only say that the archive has the wrong format. Who links other functions of these names says so. */
#if !defined(__x86_64__) && !defined(PWS_OTHER_LIBRARY)
#error "libpws.a has code for x86-64 alone: build the host for x86-64, or define PWS_OTHER_LIBRARY to link other functions of these names"
#endif

#include <stddef.h>
#include <stdint.h>

#ifdef __cplusplus
extern "C" {
#endif

/* 0 and the length written, or a refusal and 0. */
typedef struct {
    uint32_t number;
    size_t length;
} pws_done;

/* A request without its items. Flags: 1 concurrent, 2 cancel-all, 4 notification present. Areas: 0 none, 1 cells,
 * 2 tracking areas, 3 emergency areas. Kinds: 1 Write-Replace, 2 Cancel or Kill, 3 Restart, 4 Failure, 5 one second.
 * A Write-Replace of SIB kind 6, an earthquake primary, starts a text that goes out every second until it is stopped, whatever
 * its period and requested count, 0 included; a period above the limit is refused all the same. */
typedef struct {
    uint8_t kind, flags, area;
    uint16_t identifier, serial;
    uint32_t content, period;
    uint16_t requested;
    uint8_t sib;
} pws_request;

/* 0, the fields and the count of items; or a refusal, and everything else 0. */
typedef struct {
    uint32_t number;
    pws_request request;
    size_t items;
} pws_reading;

/* 0 and where the segment lies: length bytes from start on, in the buffer first where buffer is 0 and in more where it is 1.
 * Or a refusal, and everything else 0. */
typedef struct {
    uint32_t number;
    uint32_t buffer;
    size_t start;
    size_t length;
} pws_part;

/* 0, the message's transaction identifier (0 to 255) and the length of what it was written as: the record of a cancel, the answer
 * of a response. Or a refusal, and everything else 0. */
typedef struct {
    uint32_t number;
    uint32_t transaction;
    size_t length;
} pws_message;

/* Writes an empty table of heads_length / 24 cells at the start of table: 16 + 120 N bytes, which is the length returned.
 * The bytes behind them stay. Refusals: 9, then 8. */
pws_done pws_build(const uint8_t *heads, size_t heads_length, uint8_t *table, size_t table_length);

/* Writes a version 1 table, lent with its exact length of 16 + 104 N, as a version 2 table of the same cells at the start of
 * table: 16 + 120 N bytes, which is the length returned. The bytes behind them stay, and so does the old table.
 *
 * Where pws_apply gives 1 for a table that an older library accepted, that table is of version 1. Convert it once, into a second
 * buffer, and lend that one from then on, with its own length. Every text runs on where it was: the count sent and the seconds
 * still to wait are carried, so it goes out in the same seconds as it would have. A table that is of version 2 already gives 1
 * here. Records need no conversion.
 *
 * Refusals in this order: 1 (any version but 1), 2 (by version 1's rules, with periods up to 4095), 8. */
pws_done pws_convert(const uint8_t *old, size_t old_length, uint8_t *table, size_t table_length);

/* Applies one request record to one table of version 2, which must be lent with its exact length, and writes the answer at the
 * start of the answer buffer. In the table only the cells that the request reaches change; the bytes behind the answer stay.
 * A text that is live runs on with the period and count that the table has for it, SIB kind 6 included; a repeat changes neither.
 * The answer buffer must hold 12 + 14 N bytes, or 12 + 56 N for one second, however few rows there will be; the length
 * returned is what was written. Refusals: 1 to 8, the lowest that applies. */
pws_done pws_apply(uint8_t *table, size_t table_length, const uint8_t *record, size_t record_length, uint8_t *answer, size_t answer_length);

/* The fields and the count of items of a record of either version. The items stay in the record: see pws_item. Refusals: 3 to
 * 7, the lowest that applies. */
pws_reading pws_read(const uint8_t *record, size_t record_length);

/* Writes a record of version 2, 26 + 8 count bytes at the start of record, which is the length returned; the bytes behind it
 * stay. What it writes, pws_read reads back as the same fields and items. Refusals in this order: 4 (count above 512), 5, 6, 7, 8. */
pws_done pws_write(pws_request request, const uint64_t *items, size_t count, uint8_t *record, size_t record_length);

/* The k-th item of a record, counted from 0, as a number; 0 where the record ends before it. */
uint64_t pws_item(const uint8_t *record, size_t record_length, size_t k);

/* Where segment k of a text lies. Keep the first SIB message in one buffer, as it came, and the additional ones in another, in
 * the order in which they are broadcast: a list in which each stands behind its length in 2 bytes, back to back. A text without
 * additional ones has a list of length 0, whose pointer is not null all the same. k = 0 is the first SIB message, whatever its
 * bytes and however long; k = 1 to 63 are the list's segments.
 *
 * To broadcast a text, ask for k = 0, 1, .. until 12. A part is the caller's own bytes, where they are: nothing is copied, and
 * nothing written. Test the number, not the length: number 0 with length 0 is a segment without bytes, and others may follow.
 * The whole list is judged for every k, k = 0 too, so a list that is refused gives its number at k = 0, before anything was
 * broadcast, and one that is not ends with 12 and nothing else. Refusals in this order: 10, 11, 12. */
pws_part pws_segment(const uint8_t *first, size_t first_length, const uint8_t *more, size_t more_length, size_t k);

/* Packs a list for pws_segment: count segments, whose bytes stand back to back in bytes and whose lengths stand in lengths, at
 * most 63 of them and each at most 65,535. The first SIB message is not one of them. It writes 2 count + bytes_length bytes at
 * the start of list, which is the length returned; the bytes behind them stay. Each list has this one packing, and
 * pws_segment gives its segments back. Refusals in this order: 10, 11, 8. */
pws_done pws_pack(const uint8_t *bytes, size_t bytes_length, const uint64_t *lengths, size_t count, uint8_t *list, size_t list_length);

/* Reads an F1AP PWS CANCEL REQUEST, lent as it came, with its exact length, and writes it as a Cancel record of version 2 at the
 * start of record: 26 + 8 n bytes for n listed cells, which is the length returned. The bytes behind them stay; 4122 bytes hold
 * every record that there is. pws_apply takes the record, and pws_write_response the transaction identifier.
 *
 * The record has flag 2 for the message's cancel-all indicator, flag 4 with identifier and serial number for its notification
 * information, both for both; NumberofBroadcastRequest as requested; and the listed cells in their order, repeats among them.
 * Without a list it has no area: it is for every cell. Unknown elements marked ignore or notify are skipped wherever they stand,
 * so messages that differ in these alone give the same record. A known element's criticality is not read.
 *
 * Refusals in this order, each over the whole message: 13, 14, 15, 16, 7 (neither indicator), 8 (record shorter than this one). */
pws_message pws_read_cancel(const uint8_t *message, size_t message_length, uint8_t *record, size_t record_length);

/* Writes an answer, lent with its exact length as pws_apply gave it, as the F1AP message that tells of it, at the start of message:
 * WRITE-REPLACE WARNING RESPONSE for an answer of kind 1, PWS CANCEL RESPONSE for one of kind 2. The length returned is the
 * message's; the bytes behind it stay. transaction is that of the message that is answered.
 *
 * The message lists the cells of the rows, after a cancel each with its count; without rows it has no list, and 13 bytes. The
 * answer's identifier and serial number are not in it. 21 + 15 n bytes hold a response of n rows, 7701 bytes every one that there
 * is: lend so many, and an answer of pws_apply to kind 1 or 2 is never refused, so that no change stays unanswered.
 *
 * Refusals in this order: 17, 8 (message shorter than this one). */
pws_done pws_write_response(const uint8_t *answer, size_t answer_length, uint8_t transaction, uint8_t *message, size_t message_length);

/* Reads either response, lent as it came, with its exact length, and writes it as an answer of version 1 at the start of answer:
 * 12 + 14 n bytes for n listed cells, which is the length returned. The bytes behind them stay; 7180 bytes hold every answer that
 * there is. Its kind is 1 for a WRITE-REPLACE WARNING RESPONSE and 2 for a PWS CANCEL RESPONSE. Identifier and serial number are 0,
 * for no response has them, and so are the counts of kind 1. Without a list it has no rows.
 *
 * Unknown elements are skipped or refused as in a cancel; diagnostics and the dedicated delivery list are unknown here. What
 * pws_write_response writes reads back as the same kind, cells, counts and transaction identifier.
 *
 * Refusals in this order, each over the whole message: 13, 14 (neither response), 15, 16, 17, 8 (answer shorter than this one). */
pws_message pws_read_response(const uint8_t *message, size_t message_length, uint8_t *answer, size_t answer_length);

#ifdef __cplusplus
}
#endif

#endif
