/*
 * Checking, measuring and printing of sheets, and a live list of gates: the C interface of libpanel.a.
 *
 * A format in the style of java.util.Formatter and a row of values go in; text and the end of each piece come out.
 * A piece is a run of plain text up to the next `%`, or `%%`, or `%n`, or one element such as `%08x`.
 *
 * Slices are a pointer and a length in bytes. A null pointer is allowed with length 0. What is lent to one call (slices, a
 * list, lengths) must not overlap; nothing is promised where it does. Any bytes may stand in it: a call always returns, and
 * never reads or writes outside it. No call allocates memory or calls back. Nothing is kept between calls but in a list,
 * which is the caller's memory.
 *
 *
 * The row of values
 *
 * All numbers are little-endian. The length is exactly 6 + 9n + t.
 *
 *   offset     bytes   content
 *   0          2       n, the count of values, 0 to 64
 *   2          4       t, the length of the text area, 0 to 32,768
 *   6          n       the kind of each value
 *   6 + n      8n      the values, 8 bytes each
 *   6 + 9n     t       the text area
 *
 *   kind       value
 *   1 2 3 4    signed integer of 8, 16, 32, 64 bits, sign-extended to 8 bytes, within its kind
 *   5          Float64: the bits of a binary64, any of them
 *   6          Boolean: 0 or 1
 *   7          text: low 4 bytes its offset in the text area, high 4 bytes its length; their sum is at most t, and the
 *              bytes so named are well-formed UTF-8; parts may overlap
 *   8          time: nanoseconds since 1970-01-01T00:00:00Z as a signed integer of 64 bits, any of them; never null
 *   129 to 132, 134   null of the kind less 128; the value is 0
 *
 * Values that no element takes must be right too. Bytes of the text area that no value names may be anything.
 *
 * A time is printed by t and T with a letter behind, as in `%tF %<tT`. s and h fit it too, and are not printed (15).
 *
 *
 * Refusals
 *
 *   no.  cause                                                                       place   c m p j l
 *   1    format over 4,096 bytes                                                     0       c m p j
 *   2    format not well-formed UTF-8                                                0       c m p j
 *   3    over 64 kinds, or a kind not 1 to 8                                         0       c
 *   4    `%<` before any element                                                     `%`     c m p j
 *   5    `%$`                                                                        `%`     c m p j
 *   6    argument index, width or precision above 2,147,483,647                      `%`     c m p j
 *   7    argument index above the count of kinds                                     `%`     c m p j
 *   8    flag `0` after flag `-`                                                     `%`     c m p j
 *   9    flags `+` and space together                                                `%`     c m p j
 *   10   no such letter, or the format's end in its place                            `%`     c m p j
 *   11   no such time letter after t or T, or the format's end in its place          `%`     c m p j
 *   12   letter does not fit the kind                                                `%`     c m p j
 *   13   a 513th piece begins                                                        piece   c m p j
 *   14   row breaks its layout                                                       0         m p j
 *   15   letter fits the kind but is not printed for it                              `%`       m p j
 *   16   %c or %C of an integer that is no Unicode scalar value                      `%`       m p j
 *   17   text longer than the output or than 4,294,967,295, or more pieces than ends 0           p
 *   18   t or T of a negative time that is not a whole second                        `%`       m p j
 *   19   join of a gate that is present                                              0             j
 *   20   leave of a gate that is absent                                              0               l
 *   21   join where 128 gates are present                                            0             j
 *
 * The last column says which functions return the number: c panel_check, m panel_measure, p panel_print, j panel_list_join,
 * l panel_list_leave. A place is an offset in the format: `%` that of the element's `%`, "piece" that where the 513th piece
 * starts.
 *
 * Where several causes hold: 19, 21; then 1, 2, then 3 or 14; then 4 to 13 from left to right, 13 before the others at
 * each piece, and inside an element in reading order; then 15, 16 and 18 from left to right; then 17.
 */
#ifndef PANEL_H
#define PANEL_H

#include <stddef.h>
#include <stdint.h>

#ifdef __cplusplus
extern "C" {
#endif

/* number 0: accepted, with the count of pieces and the largest argument index used (0 if none); place is 0.
   Otherwise number and place are the refusal's, and pieces and largest are 0. */
struct panel_checked {
    uint64_t number, place, pieces, largest;
};

/* number 0: printed or measured, with the text's length in bytes and the count of pieces; place is 0.
   Otherwise number and place are the refusal's, and length and pieces are 0. */
struct panel_printed {
    uint64_t number, place, length, pieces;
};

/* Checks a format against a list of kinds, one byte each, 1 to 8 (no null marks). Writes nothing. */
struct panel_checked panel_check(const uint8_t *fmt, size_t fmt_len, const uint8_t *kinds, size_t kinds_len);

/* The length and count of pieces that printing this row under this format has. Writes nothing, and needs no room: it
   never refuses with 17, and lengths above 4,294,967,295 are given too. */
struct panel_printed panel_measure(const uint8_t *fmt, size_t fmt_len, const uint8_t *row, size_t row_len);

/*
 * Prints a row under a format.
 *
 * Writes the text from the start of out, and for each piece, from the start of ends, the text's length up to and
 * including that piece, as 4 little-endian bytes. So piece k, counted from 0, is the bytes of out from end k - 1 (from 0
 * for the first) to end k. An empty piece repeats the end before it. The length returned is the last end, 0 without pieces.
 *
 * There is room for ends_len / 4 ends. out_len equal to the length and as many ends as pieces suffice; panel_measure
 * gives both numbers.
 *
 * Never written: fmt and row; bytes of out past the text; ends past the last piece, and the up to 3 bytes of ends left over
 * behind the last whole end. A refusal leaves all of out and ends as they were.
 */
struct panel_printed panel_print(const uint8_t *fmt, size_t fmt_len, const uint8_t *row, size_t row_len,
                                 uint8_t *out, size_t out_len, uint8_t *ends, size_t ends_len);


/* ---- A live list of gates ---- */

#define PANEL_MOST_GATES 128
#define PANEL_MOST_PIECES 512
#define PANEL_LIST_WORDS 66177

/*
 * Up to 128 gates, each a number with its row, all under one format; and for every piece of the format its largest printed
 * length among the gates present, in bytes.
 *
 * The memory is the caller's, 264,708 bytes; what stands in it is the library's own: gate numbers and lengths, nothing of
 * rows and format. A list is begun by panel_list_empty, whatever stood in the memory before, and from then on changed by
 * these calls alone. Its pointer must not be null.
 *
 * Each join is lent the format, the same bytes from one emptying to the next; where they differ, answers and lengths are not
 * promised. To change the format, empty the list and let the gates join again. Rows of different kinds may stand in one list.
 *
 * Where other bytes stand in the memory than these calls left, every call still returns and touches nothing outside what it
 * is lent, and a refusal still changes nothing; answers and lengths are not promised until the list is emptied.
 */
struct panel_list {
    uint32_t words[PANEL_LIST_WORDS];
};

/* number 0: the list is changed; place is 0. Otherwise number and place are the refusal's, and every byte of the list is as
   it was. */
struct panel_changed {
    uint64_t number, place;
};

/* Makes the memory a list without gates, whatever stands in it. Costs the clearing of 512 lengths. */
void panel_list_empty(struct panel_list *list);

/* Takes in a gate with its row. Any number will do that is not present, one that has left too. What panel_measure refuses
   is refused with the same number and place. Costs what panel_measure does, a pass over the numbers of the gates present,
   and one over 512 lengths. */
struct panel_changed panel_list_join(struct panel_list *list, uint32_t gate, const uint8_t *fmt, size_t fmt_len,
                                     const uint8_t *row, size_t row_len);

/* Takes out a gate; its place and its number are free again. Measures nothing: costs a pass over the numbers of the gates
   present and one over 512 lengths; and for each piece at which no gate is longer, over that piece's lengths up to the first
   gate as long. That is at most one pass over the lengths of the gates present. */
struct panel_changed panel_list_leave(struct panel_list *list, uint32_t gate);

/*
 * Writes 512 lengths, whatever the format; the pointer must not be null. For piece k, counted from 0, the largest among the
 * gates present, and 0 past the format's pieces. All are 0 where no gate is present. Plain text, `%%` and `%n` are pieces
 * too, whose length counts while a gate is present. From panel_list_empty on, these are after every call the lengths worked
 * out afresh from the gates present. Costs a copy.
 */
void panel_list_lengths(const struct panel_list *list, uint64_t lengths[PANEL_MOST_PIECES]);

#ifdef __cplusplus
}
#endif

#endif
