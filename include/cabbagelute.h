/*
 * Cabbagelute: a proved reader of pkg-config .pc files, for C callers.
 *
 * Link with libexport.a, which `host/archive` writes to target/staticlib/ (x86-64 of the level x86-64-v2, Linux).
 *
 * Every call ends with an answer, for all bytes and all buffers. Each buffer is a pointer and its length; `workspace_len`
 * counts entries of 32 bits. No two of the buffers may overlap, and none may be null (a length of 0 is fine with any
 * valid pointer). What stood in workspace, pool or output before a call has no effect on the answer.
 *
 * The answer is a number:
 *    0 accepted                              10 bad variable name
 *    1 text over 65,535 bytes                11 variable assigned twice
 *    2 workspace short                       12 unknown field
 *    3 pool short                            13 field given twice
 *    4 not well-formed UTF-8                 14 quote not closed
 *    5 reference not closed                  15 reference has no value
 *    6 bad character in a reference          16 expansion too large (a value over 67,108,864 bytes)
 *    7 wrong token where a line starts       17 output short
 *    8 wrong token where : or = is due       19 detail shorter than 48 bytes
 *    9 text ended where : or = is due
 *
 * For a text of n bytes the workspace must have 12n + 64 entries and the pool n bytes, else 2 or 3.
 *
 * Afterwards, on every answer but 19, `detail` holds six 8-byte little-endian numbers: the answer; its number (0 and 17: bytes
 * of records; 6: the code point; 7 and 8: the token's kind; 15 and 16: the field, 0 for a variable; else 0); then place and
 * length in the pool of the first name (7 and 8: the token's text; 10 to 13: the key; 15: the reference) and of the second
 * (15 and 16: the variable being resolved). Bytes past the 48th are untouched. On 19 nothing at all is touched.
 *
 * On 0 the output begins with the records, and the rest of it is untouched; on any other answer all of it is untouched.
 * From 7 on, and on 0, the pool begins with the text of all Text and Variable tokens, and the rest of it is untouched; below
 * 7 (but for 0) all of it is untouched.
 * From 5 on, and on 0, the first 12n + 64 entries of the workspace are zero and the rest of it is untouched; from 1 to 4 all of
 * it is untouched.
 *
 * A record is a 4-byte length of payload, a 2-byte kind, both little-endian, then the payload. Kinds 1 to 10 are the fields
 * present, in that order: Name, Description, URL, Version, Requires, Requires.private, Conflicts, Cflags, Libs, Libs.private.
 * 1 to 7 carry the value. 8 to 10 carry a 4-byte little-endian count, and so many records of kind 11 follow, one an argument.
 */
#ifndef CABBAGELUTE_H
#define CABBAGELUTE_H

#include <stddef.h>
#include <stdint.h>

#ifdef __cplusplus
extern "C" {
#endif

/* With a workspace of its own of 16,384 entries: texts up to 1,360 bytes, and 2 above. */
uint32_t cabbagelute_read(
    const uint8_t *text, size_t text_len,
    uint8_t *pool, size_t pool_len,
    uint8_t *output, size_t output_len,
    uint8_t *detail, size_t detail_len);

/* With a lent workspace: texts up to 65,535 bytes. */
uint32_t cabbagelute_read_in(
    const uint8_t *text, size_t text_len,
    uint32_t *workspace, size_t workspace_len,
    uint8_t *pool, size_t pool_len,
    uint8_t *output, size_t output_len,
    uint8_t *detail, size_t detail_len);

/*
 * Requires and Requires.private as packages. `records` are such as the calls above write; the items of kind 5, then those of
 * kind 6, go to the output.
 *
 * An item is a name, with or without an operator and a version; blanks (space, tab) and commas separate items, any number of them
 * and also at the ends. Names and versions run up to a blank, a comma or one of = < > !. Operators: 1 =, 2 <, 3 >, 4 <=, 5 >=, 6 !=;
 * the longest is taken, and blanks may stand around it. An item without its name, an operator without a version and a ! without =
 * are malformed. Each item is three records: kind 12 with two bytes (the field, 5 or 6; the operator, 0 if none), kind 13 with the
 * name, kind 14 with the version (empty if none).
 *
 * Answers, tested in this order:
 *   19 detail shorter than 24 bytes
 *   18 the bytes are not records in form (order, repeats, counts, lengths, a value over 67,108,864 bytes)
 *   20 a malformed item, the first one, kind 5 before kind 6
 *   17 output short
 *    0 accepted
 *
 * Afterwards, on every answer but 19, `detail` holds three 8-byte little-endian numbers: the answer; its number (0: bytes written;
 * 17: bytes needed; 20: the field; else 0); for 20 the item's index within its field, from 0 (else 0). Bytes past the 24th are
 * untouched. On 19 nothing at all is touched.
 *
 * On 0 the output begins with the records, 20 bytes an item and the lengths of its name and version, and the rest of it is
 * untouched; on any other answer all of it is untouched.
 */
uint32_t cabbagelute_packages(
    const uint8_t *records, size_t records_len,
    uint8_t *output, size_t output_len,
    uint8_t *detail, size_t detail_len);

/*
 * Versions, compared by runs: 0 equal, 1 the first is lower, 2 the first is higher.
 *
 * Each version is cut into runs of ASCII digits or of ASCII letters, as long as they go; all other bytes only separate. The
 * first pair of runs that differs decides: digit runs compare as numbers of any length, letter runs by their bytes (a run that
 * begins another is lower), and a digit run is above a letter run. Where one version's runs end first, the other is higher. So
 * it is a total order, and 0 is given exactly if the runs are the same, leading zeros of digit runs aside.
 *
 * Both are only read, so they may overlap.
 */
uint32_t cabbagelute_compare_versions(
    const uint8_t *a, size_t a_len,
    const uint8_t *b, size_t b_len);

/*
 * Whether a version meets an operator and a version asked for: 1 met, 0 not met, 2 no such operator (over 6).
 *
 * The operators: 1 `=`, 2 `<`, 3 `>`, 4 `<=`, 5 `>=`, 6 `!=`, by the order above, the version on the left. 0 asks for no
 * version and is always met. Both versions are only read.
 */
uint32_t cabbagelute_version_meets(
    const uint8_t *version, size_t version_len,
    uint32_t op,
    const uint8_t *asked, size_t asked_len);

#ifdef __cplusplus
}
#endif

#endif
