/* The doors of the sheet loader.
 *
 * Each door takes the instrument as a number, SHEET_LOADER_LARGE,
 * SHEET_LOADER_ENTRY or SHEET_LOADER_FOUR; sheet_loader_load_entry is the entry
 * instrument's own.
 *
 * Slices are lent. The sheet and the word are only read. Where `out` has room
 * for SHEET_LOADER_ROOM numbers, each door writes that many at its front:
 *
 *   out[0]     the status, which the door also returns
 *   out[1]     the number of documents 01 and 02: 1 to 10, 12 to 14, 18 to 20
 *              and 24 to 26 of a refusal, 11 of an unproved sheet, 0 of any
 *              other answer
 *   out[2]..   the values given below
 *   the rest   0
 *
 * What `out` has behind them stays as it is. Where `out` is shorter, nothing
 * is written, and SHEET_LOADER_NOT_WRITTEN is returned. */
#ifndef SHEET_LOADER_H
#define SHEET_LOADER_H

#include <stddef.h>
#include <stdint.h>

#ifdef __cplusplus
extern "C" {
#endif

#define SHEET_LOADER_ROOM 8

/* The instruments:
 *
 *   LARGE      65,536 bytes, 512 points, events 0 to 31, kinds 1 to 20
 *   ENTRY      8,192 bytes, 64 points, events 0 to 31, kinds 1 to 20
 *   FOUR       65,536 bytes, 512 points, events 0 to 63, kinds 1 to 22
 *
 * FOUR is the four-channel instrument: channel c of 0 to 3 has the events 16c to
 * 16c + 15. Kind 21 is a leaf with a set of 8 bytes, kind 22 a call of a primitive
 * on a channel. Any other number, 0 too, is no instrument's. */
#define SHEET_LOADER_LARGE 1
#define SHEET_LOADER_ENTRY 2
#define SHEET_LOADER_FOUR 3

/* No answer has this status. */
#define SHEET_LOADER_NOT_WRITTEN 0

/* The status where the number is no instrument's, whatever the other
 * arguments: nothing was loaded, tested or read. The other numbers are 0. */
#define SHEET_LOADER_UNKNOWN_INSTRUMENT 4

/* Stands for the place of a refusal that has none (12 and 14). */
#define SHEET_LOADER_NO_PLACE SIZE_MAX

/* Loads a sheet.
 *   ACCEPTED    count
 *   REFUSED     place
 *   UNPROVED    rule, subject, clause, pair, event, place
 * The place of a refusal is the offset of the record at fault, or of the first
 * point whose owner is no method (25), the sheet's length (8, 9 where there is no
 * method, 10), or the most bytes of the instrument (1).
 * The subject is a method for rules 1 to 6 and 22 to 24, and a step for rules 7
 * to 21, 25 and 26. The event of a fault is one of the instrument's events. */
#define SHEET_LOADER_ACCEPTED 1
#define SHEET_LOADER_REFUSED 2
#define SHEET_LOADER_UNPROVED 3
size_t sheet_loader_load(size_t instrument, const uint8_t *sheet, size_t sheet_len, size_t *out,
                         size_t out_len);

/* As sheet_loader_load with SHEET_LOADER_ENTRY, on less stack: it has no room
 * for the points of the large instrument. */
size_t sheet_loader_load_entry(const uint8_t *sheet, size_t sheet_len, size_t *out, size_t out_len);

/* Tests whether a condition of a sheet holds a word, one byte an event.
 *   YES
 *   REFUSED     place; of 13 the index of the first byte that is no event of the
 *               instrument
 *   NO          length
 * The length is that of the longest beginning of the word that begins some word of
 * the condition: the event at that index is the first that is wrong or, where the
 * length is the word's own, events are missing at its end. It is 0 if the condition
 * holds no word. */
#define SHEET_LOADER_YES 1
#define SHEET_LOADER_NO 3
size_t sheet_loader_word_test(size_t instrument, const uint8_t *sheet, size_t sheet_len,
                              size_t condition, const uint8_t *word, size_t word_len, size_t *out,
                              size_t out_len);

/* Reads a sheet, refusals 1 to 9, 18 to 20 and 24 to 26 alone.
 *   READ_WHOLE  conditions, points, methods, steps, certificates
 *   REFUSED     place */
#define SHEET_LOADER_READ_WHOLE 1
size_t sheet_loader_read(size_t instrument, const uint8_t *sheet, size_t sheet_len, size_t *out,
                         size_t out_len);

#ifdef __cplusplus
}
#endif

#endif
