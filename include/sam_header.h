/* The header library for C and C++: link libsam_header.a (README says how it is made).
 *
 * Any bytes may be lent. Pointers must be what C asks of a slice: not NULL, even if the length is 0; aligned to their type; to fewer bytes than
 * PTRDIFF_MAX. Nothing that a call writes, `*length`, `*inspected` and `seal` included, may overlap anything else that is lent to that call. Calls keep no
 * state, so they may run side by side.
 * Stack: for texts of at most 256 KiB a call takes at most 64 KiB, but for add, which takes 72, leaves_by_table 80, faults 136 and judge_merge 208; for
 * longer texts any call takes at most 900 KiB, faults 912. The calls with a work area take at most 64 KiB for any text. examples/stack.c measures it.
 *
 * Room that always suffices: for read 3 * text_len + 1 bytes; for tidy, prune, carry_on, binary_in, seal and check_sealed as many as the text has and
 * one more, and two numbers per line in carry_on's table; for binary_out twice text_len and 14; for roots, leaves and leaves_by_table 1,024
 * ordinals, and 1,024 records in leaves_by_table's table; for references three numbers per SQ, and as many as text_len always suffice; for names as
 * many ordinals as the list has names, and the slots that are given there; for add what tidy needs and for each new program, one after each leaf,
 * prefix_len + fields_len, twice the leaf's ID and 13 bytes. An output that is too short is refusal 20.
 *
 * An answer of 2^63 or more is a refusal, which changes no byte (check_sealed says what its 33 leaves). Any other answer counts what was written to
 * the front of the output, unless a call says otherwise. docs/REFUSALS.md says of each number what it means, which calls give it and what its line is. */
#ifndef SAM_HEADER_H
#define SAM_HEADER_H

#include <stddef.h>
#include <stdint.h>

#ifdef __cplusplus
extern "C" {
#endif

/* Rises when a call or an answer is changed; calls that are added leave it. The shared object has it in its name, libsam_header.so.4. */
#define SAM_HEADER_VERSION 4

#define SAM_HEADER_IS_REFUSAL(answer) ((int)((uint64_t)(answer) >> 63))
#define SAM_HEADER_NUMBER(answer) ((unsigned)((uint64_t)(answer) >> 32 & 255))
#define SAM_HEADER_LINE(answer) ((uint32_t)((uint64_t)(answer) & UINT32_MAX))

/* Of judge_merge: which text a refusal is about, 1 for A, 2 for B, 3 for the merged one; 0 for 30, 31 and 32. */
#define SAM_HEADER_ABOUT(answer) ((unsigned)((uint64_t)(answer) >> 48 & 255))

/* The parts of an answer that is no refusal: of key and field, of leaves and leaves_by_table, and of carry_on. */
#define SAM_HEADER_OFFSET(answer) ((uint32_t)((uint64_t)(answer) >> 32))
#define SAM_HEADER_LENGTH(answer) ((uint32_t)((uint64_t)(answer) & UINT32_MAX))
#define SAM_HEADER_HOPS(answer) ((uint32_t)((uint64_t)(answer) >> 32))
#define SAM_HEADER_COUNT(answer) ((uint32_t)((uint64_t)(answer) & UINT32_MAX))
#define SAM_HEADER_SKIPPED(answer) ((uint32_t)((uint64_t)(answer) >> 32))
#define SAM_HEADER_WRITTEN(answer) ((uint32_t)((uint64_t)(answer) & UINT32_MAX))

/* Of binary_len, where it is no refusal: whether more bytes are needed, and how many in all. */
#define SAM_HEADER_IS_CUT(answer) ((int)((uint64_t)(answer) >> 62 & 1))
#define SAM_HEADER_NEEDED(answer) ((uint64_t)(answer) & (UINT64_MAX >> 2))

/* Refusal numbers. */
enum {
    SAM_HEADER_TOO_LONG = 1,       /* the text, or the text to be written */
    SAM_HEADER_BREAK = 2,          /* LF or CR inside a line */
    SAM_HEADER_NO_AT = 3,          /* the line does not start with @ */
    SAM_HEADER_NO_KIND = 4,        /* nothing after the @ */
    SAM_HEADER_UNKNOWN_KIND = 5,   /* not HD, SQ, RG, PG or CO */
    SAM_HEADER_NO_TAB = 6,         /* another byte where a tab is due */
    SAM_HEADER_NO_COMMENT = 7,     /* @CO ends there */
    SAM_HEADER_BAD_TAG = 8,
    SAM_HEADER_NO_COLON = 9,
    SAM_HEADER_BAD_VALUE = 10,     /* empty or a wrong byte; DS of SQ, RG and PG, and CL of PG: empty or not UTF-8 */
    SAM_HEADER_BAD_VERSION = 11,   /* VN of HD */
    SAM_HEADER_BAD_LENGTH = 12,    /* LN of SQ: no digit, or more than 64 bits */
    SAM_HEADER_ZERO_LENGTH = 13,   /* LN of SQ is 0 */
    SAM_HEADER_REPEATED_TAG = 14,  /* in a line, only at version 1.6 or more */
    SAM_HEADER_NO_KEY = 15,        /* VN, SN or ID missing */
    SAM_HEADER_NO_LENGTH = 16,     /* LN of SQ missing */
    SAM_HEADER_LATE_HD = 17,       /* HD after another line */
    SAM_HEADER_USED_KEY = 18,      /* also by add */
    SAM_HEADER_PROGRAMS = 19,      /* a 1,025th program */
    SAM_HEADER_SHORT_OUTPUT = 20,
    SAM_HEADER_STALE = 21,         /* the catalogue is not this text's */
    SAM_HEADER_DANGLING = 22,      /* a PP names no program */
    SAM_HEADER_CYCLE = 23,
    SAM_HEADER_UNWRITABLE = 24,    /* SN can't be written */
    SAM_HEADER_NO_RECORD = 25,     /* kind not served, or no record at that ordinal or with that key */
    SAM_HEADER_BAD_GIVEN = 26,     /* add: prefix or fields */
    SAM_HEADER_LONG_LENGTH = 27,   /* LN of SQ: above 2,147,483,647, in 64 bits */
    SAM_HEADER_BAD_BINARY = 28,    /* binary_in, binary_len: not the form of a binary header */
    SAM_HEADER_OTHER_LIST = 29,    /* binary_in: the reference list is not the text's SQ list */
    SAM_HEADER_MERGED_SQ = 30,     /* judge_merge: the merged SQ list, or shared names with other lengths */
    SAM_HEADER_MERGED_LISTS = 31,  /* judge_merge: the lists of ordinals */
    SAM_HEADER_MERGED_IMAGE = 32,  /* judge_merge: an image has other fields, or another parent */
    SAM_HEADER_OTHER_SEAL = 33     /* check_sealed: the seal is another header's */
};

/* The answer of field if the caller's stand-in is to be used: all ones. It has no number and no line. */
#define SAM_HEADER_STAND_IN UINT64_MAX

/* Reads a header and writes its catalogue to `catalogue`: one entry after another, in text order. The first byte of an entry is its kind; numbers are
 * little-endian, and offsets count from the text's first byte.
 *     1 HD           VN's major and minor, 4 bytes each; the line, 4                              13 bytes
 *     2 SQ           SN's offset and length, 4 bytes each; LN, 8; the line, 4                     21
 *     3 RG, 4 PG     ID's offset and length, 4 bytes each; the line, 4                            13
 *     5 CO           the comment's offset and length, 4 bytes each; the line, 4                   13
 *     6 a field      of the record before it: its tag, 2 bytes; offset and length, 4 bytes each   11 */
uint64_t sam_header_read(const uint8_t *text, size_t text_len, uint8_t *catalogue, size_t catalogue_len);

/* The same answer with a lent work area of any length and content; work_len counts numbers. It is all zeros afterwards, on every answer, refusals too. With
 * it a text of any length takes little stack. Twice as many slots as the text has lines are enough to be fast; with fewer, a text of more than 256 KiB is
 * looked through several times. */
uint64_t sam_header_read_with(const uint8_t *text, size_t text_len, uint8_t *catalogue, size_t catalogue_len, uint32_t *work,
                              size_t work_len);

/* 0 if the catalogue is the one that reading this text gives, and 21 if not: every offset, length, line number, VN and LN in it is then this text's. It holds no bytes of
 * names, so that two texts which differ only in names of equal length have one catalogue. A text that reading refuses gets reading's refusal. */
uint64_t sam_header_check(const uint8_t *text, size_t text_len, const uint8_t *catalogue, size_t catalogue_len);

/* The same answer with a lent work area, as in sam_header_read_with. */
uint64_t sam_header_check_with(const uint8_t *text, size_t text_len, const uint8_t *catalogue, size_t catalogue_len, uint32_t *work,
                               size_t work_len);

/* Writes the tidy text of a header. */
uint64_t sam_header_tidy(const uint8_t *text, size_t text_len, uint8_t *out, size_t out_len);

/* The same answer with a lent work area, as in sam_header_read_with. */
uint64_t sam_header_tidy_with(const uint8_t *text, size_t text_len, uint8_t *out, size_t out_len, uint32_t *work, size_t work_len);

/* Seals a header: writes its tidy text to the front of `work`, as sam_header_tidy does, and the SHA-256 of that text to `seal`, which has 32 bytes. The
 * answer is sam_header_tidy's. The seal is the header's: texts of equal records have one, in whatever order, spelling and line endings they came; two
 * headers with one seal would be a collision of SHA-256. Refused as tidy is, 20 for a short work area; then neither `work` nor `seal` changes. */
uint64_t sam_header_seal(const uint8_t *text, size_t text_len, uint8_t *work, size_t work_len, uint8_t seal[32]);

/* 0 if the catalogue is the one that reading this text gives and the seal, 32 bytes, is the one that sealing it gives. Reading's refusals, 21, then as
 * tidy, 20 for a short work area, then 33 for another header's seal: an edit that keeps every length, as of chr1 to chrX, is seen here and not by
 * sam_header_check. On 0, and on 33 too, the tidy text is at the front of `work` and the rest of it is as it was; any other refusal changes nothing. */
uint64_t sam_header_check_sealed(const uint8_t *text, size_t text_len, const uint8_t *catalogue, size_t catalogue_len,
                                 const uint8_t seal[32], uint8_t *work, size_t work_len);

/* Goes on after lines that are refused: skips them and writes the tidy text of the others. Writes two numbers per skipped line, in order, to the front of
 * `table`: the line and the refusal's number; table_len counts numbers. The answer is the skipped lines shifted left by 32, and the bytes written. While no
 * line is kept, each line that starts @HD and a tab and whose first VN can be read sets the rule for repeated tags, also where it is skipped, and an HD may
 * still be kept; a key of a skipped line is free. 1 for the text, then 24, 1 for the text to be written, 20 for a short output or a short table; then neither
 * of them changes. */
uint64_t sam_header_carry_on(const uint8_t *text, size_t text_len, uint8_t *out, size_t out_len, uint32_t *table, size_t table_len);

/* The faults of a text. Writes two numbers per faulty line, in order, to the front of `table`: the line and its fault; table_len counts numbers. The answer is
 * how many faulty lines there are. A line that carrying on skips has its refusal there; of the lines that are kept, an SQ whose name can't be written has
 * 24, a program whose PP equals the ID of no program kept has 22, and a program that comes back to itself by its parents has 23 (one that only leads into
 * such a cycle is not faulty). There are none exactly if reading, tidying and the leaves all accept. 1 for the text, then 20 for a short table, which
 * then does not change. */
uint64_t sam_header_faults(const uint8_t *text, size_t text_len, uint32_t *table, size_t table_len);

/* The same as carry_on, with a lent work area of any length and any content. It is all zeros afterwards, on every answer, refusals too; the answer, `out` and
 * `table` are those of carry_on. work_len counts numbers: at most one per eight bytes of the text is used. An area of 6,144 numbers or fewer is only
 * cleared, and a text of more than 256 KiB is then carried on over in many small blocks, which is slow. At most 64 KiB of stack for any text. */
uint64_t sam_header_carry_on_with(const uint8_t *text, size_t text_len, uint8_t *out, size_t out_len, uint32_t *table, size_t table_len, uint32_t *work, size_t work_len);

/* Writes the uncompressed binary header of a header: the bytes BAM and 1, the length of the tidy text and the tidy text, how many SQ there are, and for each,
 * in the text's order, the length of its name with a closing zero byte, the name, that byte, and its LN; numbers have 4 bytes, the lowest first. Refused as
 * tidy is; an `out` with room for only the tidy text is too short. */
uint64_t sam_header_binary_out(const uint8_t *text, size_t text_len, uint8_t *out, size_t out_len);

/* Writes the tidy text of an uncompressed binary header, whose text may end with zero bytes. 28 where the bytes have another form: another start, too few or
 * too many, a name length of 0, a name without its closing zero. Then reading's refusals of the text, with lines of the text; 29 where the list is not the
 * text's SQ list, names and lengths in order; then as tidy. */
uint64_t sam_header_binary_in(const uint8_t *bytes, size_t bytes_len, uint8_t *out, size_t out_len);

/* How many bytes at the front of a SAM file belong to its header: all lines from the first on that start with @, their endings included; an empty line
 * ends it. It judges nothing else and never refuses; a text that reading accepts is a header as a whole. The front that was lent may end within the header or
 * within a line: where the answer is bytes_len, lend more. */
uint64_t sam_header_text_len(const uint8_t *bytes, size_t bytes_len);

/* How many bytes at the front of an uncompressed BAM stream are its binary header: as many as binary_in takes, which then never answers 28. If the header
 * goes on after the bytes that were lent, bit 62 is set and SAM_HEADER_NEEDED is how many are needed to say more, always more than were lent and never
 * more than the header has: lend so many or more, and ask again. Each call passes all references anew: fronts that double cost at most three times as much
 * as one call, and lending just what is needed, reference by reference, takes time that grows with the square. 28 as soon as it can be no binary header,
 * whatever follows. 1 for a number of 2^62 or more, which no memory holds. The text is passed over, not read. */
uint64_t sam_header_binary_len(const uint8_t *bytes, size_t bytes_len);

/* ---- over a text and its catalogue: reading's own refusal comes first, then 21.
 * Kinds are HD 1, SQ 2, RG 3, PG 4, CO 5; ordinals count from 0 within a kind. */

/* How many records of a kind; 25 for another kind. */
uint64_t sam_header_count(const uint8_t *text, size_t text_len, const uint8_t *catalogue, size_t catalogue_len, uint8_t kind);

/* Where a record's key is: its offset shifted left by 32, and its length. */
uint64_t sam_header_key(const uint8_t *text, size_t text_len, const uint8_t *catalogue, size_t catalogue_len, uint8_t kind,
                        uint32_t ordinal);

/* The ordinal of the SQ, RG or PG whose key, SN or ID, is `key`, of any bytes: the inverse of sam_header_key. 25 if there is none, and for
 * another kind. Each call looks through the records one after another: for many names of SQ ask sam_header_names. */
uint64_t sam_header_find(const uint8_t *text, size_t text_len, const uint8_t *catalogue, size_t catalogue_len, uint8_t kind,
                         const uint8_t *key, size_t key_len);

/* The line of a record of kind 1 to 5: lines count from 0, and every line counts, of whatever kind. */
uint64_t sam_header_line(const uint8_t *text, size_t text_len, const uint8_t *catalogue, size_t catalogue_len, uint8_t kind,
                         uint32_t ordinal);

/* The LN of an SQ in `*length`, and 0. It is 1 to 2,147,483,647: reading refuses any other. */
uint64_t sam_header_length(const uint8_t *text, size_t text_len, const uint8_t *catalogue, size_t catalogue_len, uint32_t ordinal,
                           uint64_t *length);

/* Writes three numbers per SQ, in order, to the front of `table`: the offset of its SN, the length of that, and its LN; table_len counts numbers.
 * The answer is how many SQ there are, a third of the numbers written. 20 for a table with fewer than three numbers per SQ. */
uint64_t sam_header_references(const uint8_t *text, size_t text_len, const uint8_t *catalogue, size_t catalogue_len, uint32_t *table,
                               size_t table_len);

/* Where the value of a record's field is, given the two bytes of its tag: its offset shifted left by 32, and its length; a key is not a field.
 * SAM_HEADER_STAND_IN if there is no such field, and for any refusal. */
uint64_t sam_header_field(const uint8_t *text, size_t text_len, const uint8_t *catalogue, size_t catalogue_len, uint8_t kind,
                          uint32_t ordinal, uint8_t tag_0, uint8_t tag_1);

/* Writes the ordinal among the SQ of each name of `list` to `out`, or 4,294,967,295 for a name that no SQ has: each LF ends a name, which may be empty, and
 * bytes after the last LF are one more name. The index of the SQ names in `work`, at its front: slots, as many as the smallest power of two that is not
 * below twice the number of SQ, and at least 2. The slots that were looked at for the names, building not counted, in `*inspected`: with m SQ at most
 * m + 1 per name; a refusal leaves it. 1 for a list of more than 16,777,216 bytes, then 20 for a short work area or a short `out`. */
uint64_t sam_header_names(const uint8_t *text, size_t text_len, const uint8_t *catalogue, size_t catalogue_len, const uint8_t *list,
                          size_t list_len, uint32_t *work, size_t work_len, uint32_t *out, size_t out_len, uint64_t *inspected);

/* Writes the ordinals of the programs without PP to `out`. */
uint64_t sam_header_roots(const uint8_t *text, size_t text_len, const uint8_t *catalogue, size_t catalogue_len, uint32_t *out,
                          size_t out_len);

/* Writes the ordinals of the programs that no PP names to `out`. The answer is the hops shifted left by 32, and how many ordinals there are; 22 for a PP that
 * names no program, 23 for a cycle. */
uint64_t sam_header_leaves(const uint8_t *text, size_t text_len, const uint8_t *catalogue, size_t catalogue_len, uint32_t *out,
                           size_t out_len);

/* A program in a table: its parent's ordinal, UINT32_MAX for a program without PP, and its depth, the parent links from it to its root. */
struct sam_header_node {
    uint32_t parent, depth;
};

/* As leaves, and faster on long chains: the same ordinals in `out`, the same answer and the same refusals. The record of each program, in order, in
 * `table`, of table_len records, at its front: a program without PP has the depth 0, any other one more than its parent, and the hops are the sum of the
 * depths. Records after the last program's stay. 20 also for a table with fewer records than there are programs, after 23. */
uint64_t sam_header_leaves_by_table(const uint8_t *text, size_t text_len, const uint8_t *catalogue, size_t catalogue_len,
                                    struct sam_header_node *table, size_t table_len, uint32_t *out, size_t out_len);

/* Writes the tidy text of the header with new programs after the old ones: one after each leaf, its ID made from `prefix`, with `fields`, which are
 * a PG line's from the first tab on, or none, and PP. 26 for a prefix or fields that are not in form, 22 for a PP that names no program, a given one
 * too, 23 for a cycle, 18 for an ID that is used already, 19 for more than 1,024 programs; then as tidy. */
uint64_t sam_header_add(const uint8_t *text, size_t text_len, const uint8_t *catalogue, size_t catalogue_len, const uint8_t *prefix,
                        size_t prefix_len, const uint8_t *fields, size_t fields_len, uint8_t *out, size_t out_len);

/* Writes the tidy text of the header with only the programs in use, by their ordinals, and all their ancestors, in the old order; every other record stays.
 * `used` may hold an ordinal more than once, and used_len counts ordinals; with none no program is left. 25 for an ordinal that no program has, 22 for a PP that
 * names no program and 23 for a cycle, also among programs that would go; then as tidy, 24 with the line of `text`. */
uint64_t sam_header_prune(const uint8_t *text, size_t text_len, const uint8_t *catalogue, size_t catalogue_len, const uint32_t *used,
                          size_t used_len, uint8_t *out, size_t out_len);

/* ---- over three texts */

/* Judges a merge that another tool made: the headers A and B, the merged header, and two lists, which give for each program of A and of B the
 * ordinal of its image, the program in the merged header that it became. 0 where the merge is accepted: all three texts are, with no PP that names no
 * program and no cycle; the merged SQ list, by name and length, is A's followed by those of B whose name A lacks, and shared names have equal lengths;
 * each list has one ordinal per program, none of them too high and none twice; every merged program is in one of the lists; and an image has the same
 * fields in the same order, but for ID and PP, and a PP exactly if its original has one, which then names the image of the original's parent. IDs, HD, RG
 * and CO are not judged.
 * Reading's refusals for A, B and the merged text, then 22 and 23 for A, for B and for the merged text, then 30, 31, 32: SAM_HEADER_ABOUT says which text
 * it is. 22, 23, 30, 31 and 32 have line 0. list_a_len and list_b_len count numbers. */
uint64_t sam_header_judge_merge(const uint8_t *a, size_t a_len, const uint8_t *b, size_t b_len, const uint8_t *merged, size_t merged_len,
                                const uint32_t *list_a, size_t list_a_len, const uint32_t *list_b, size_t list_b_len);

#ifdef __cplusplus
}
#endif

#endif
