/* Strip plates: from a plate list to the shape with fewest bends; from a shape
 * file to its text of faces and back; from an older file to the same in tag
 * order; from a plate list and a step of the editor to the list after the step;
 * and from a book of entries to the current revision of a model. Ten functions.
 *
 * Link with libstripplates.a (x86-64 Linux); it needs the C library only.
 *
 * Every function returns 0 for success or the number of its refusal, and no
 * function has a precondition on the bytes that it is given. The memory lent
 * for writing and the numbers behind pointers must not overlap each other or
 * the bytes that are read. A pointer may not be null, not even with length 0.
 * No function keeps a pointer, allocates memory or uses global state.
 */
#ifndef PLATES_H
#define PLATES_H

#include <stddef.h>
#include <stdint.h>
#ifndef __cplusplus
#include <stdbool.h>
#endif

#ifdef __cplusplus
extern "C" {
#endif

/* Refusals, in the order in which they are tried, but 16 always as the last.
 * "File" is the plate list or, for plates_check_shape and plates_write_text, the
 * plate list first and then the shape, or for plates_order_fields the older
 * file, which 29 does not concern. plates_read_text tries 30, 31 and 32 straight
 * after the plate list, then 20, 21 and 25. 35 to 37 are given by
 * plates_split_strip, plates_hang_strip and plates_join_darts alone, straight
 * after the plate list. 40 to 42 are plates_current_revision's alone. Fields 08
 * and 16 are unknown in an older file. */
enum plates_refusal {
    PLATES_ACCEPTED = 0,

    /* field walk: 1, 2, 3, 29, 4, 5, all at one field before the next field */
    PLATES_FIELD_CUT = 1,          /* one or two bytes remain */
    PLATES_UNKNOWN_TAG = 2,        /* tag not of this file */
    PLATES_REPEATED_TAG = 3,       /* tag met before */
    PLATES_TAG_ORDER = 29,         /* tag below the previous one */
    PLATES_FIELD_LENGTH = 4,       /* length not as laid out */
    PLATES_CONTENT_CUT = 5,        /* content passes the end */
    PLATES_FIELD_ABSENT = 6,       /* a field other than remark, limits, prices and
                                      their sum is absent */

    /* plate list */
    PLATES_POST_COUNT = 7,         /* no post, or over 64 */
    PLATES_NO_STRIPS = 8,          /* no strip */
    PLATES_END_NOT_A_POST = 9,     /* some strip's end is not a post */
    /* 10 is not given and stands for nothing: a strip may join a post to itself */
    PLATES_OVER_FOUR_PLACES = 11,  /* some post has over four places taken, two by a
                                      strip from the post to itself */
    PLATES_CLOCKWISE_ORDER = 12,   /* not exactly each post's leaving darts, each once */
    PLATES_OUTER_DART = 13,        /* outer dart is not a dart */
    PLATES_NOT_CONNECTED = 14,     /* not in one piece */
    PLATES_NOT_PLANE = 15,         /* connected, not plane */
    PLATES_LIMITS_LENGTH = 23,     /* limits are not one per strip */
    PLATES_PRICES_WRONG = 38,      /* the prices are not one per strip, or one outside
                                      1 to 100 */

    /* writing */
    PLATES_NO_SHAPE_WITHIN = 24,   /* shaping only: no shape keeps the limits */
    PLATES_MEMORY_SHORT = 16,      /* lent memory shorter than the result */

    /* shape file */
    PLATES_SHAPE_LENGTH = 17,      /* angles or right bends are not one per dart */
    PLATES_REVISION_DIFFERS = 18,  /* revision is not the plate list's */
    PLATES_ANGLE_RANGE = 19,       /* an angle outside 1 to 4 */
    PLATES_ANGLES_AT_POST = 20,    /* angles at some post do not add to 4 */
    PLATES_TURNS_OF_FACE = 21,     /* turns of some face do not add to +4, outer -4 */
    PLATES_TOTAL_DIFFERS = 22,     /* total is not the sum of the right bends */
    PLATES_LIMIT_PASSED = 25,      /* a strip has more bends than its limit */
    PLATES_SUM_WRONG = 39,         /* the sum of bends times price is absent though the
                                      list has prices, present though it has none, or
                                      not that of the file's own bends */

    /* text of faces: each over the whole text before the next */
    PLATES_TEXT_FORM = 30,         /* a line not of the form, or a word of over 255 digits */
    PLATES_MIXED_WORD = 31,        /* a word with both digits; to text: some strip bends
                                      both ways */
    PLATES_TEXT_FACES = 32,        /* faces, with their sequence and starts, that are not
                                      the plate's, or words that do not agree across a
                                      strip */

    /* step of the editor */
    PLATES_NO_SUCH_STEP = 35,      /* a strip or dart that is not there, or darts that are
                                      equal or of two faces */
    PLATES_PLATE_FULL = 36,        /* post 65 or strip 129 */
    PLATES_POST_FULL = 37,         /* a fifth place at a post */

    /* book of entries: all three at one entry before the next entry */
    PLATES_ENTRY_CUT = 40,         /* the last entry has under six bytes */
    PLATES_REVISION_LISTED = 41,   /* revision 0, or already listed for the model */
    PLATES_NOT_CURRENT = 42        /* the revision replaced is not the model's current one
                                      or, for a new model, not 0 */
};

/* Writes the best shape of a plate list to the front of `out`.
 *
 * 0: the first *long_ bytes of `out` are the shape file and the bytes behind
 * them are as before; *bends is its total bends. The shape meets H1 to H4 and
 * keeps the limits of field 07, if the list has it: the most bends of each
 * strip, or 255 for no limit. It comes first among all such shapes of the
 * plate: fewest bends, then fewest posts with exactly two strip ends and no
 * angle of 2, then the smaller right bends of darts 0, 1, 2 and so on, then
 * the smaller angles. Where the list has field 08, a price of 1 to 100 for a bend
 * of each strip, it has the least sum of bends times price, then the fewest such
 * posts, then the fewest bends, then the smaller right bends and angles; field 16
 * (hexadecimal) of the shape file is this sum in four bytes, high byte first.
 * *long_ is 16 + 4 * strips, and 7 more with prices; 535 bytes are always enough.
 * A remark in the list, field 06, is passed over. No accepted list is longer than
 * 876 bytes.
 *
 * 1 to 15, 23, 29, 38: the plate list is refused. 24: no shape keeps its limits;
 * never for a list without field 07. 16: out_len is less than the length of
 * the shape. On a refusal `out` is unchanged; *long_ and *bends are 0. */
uint8_t plates_write_shape(const uint8_t *list, size_t list_len,
                           uint8_t *out, size_t out_len,
                           uint32_t *long_, uint32_t *bends);

/* Gives a verdict on a shape file against a plate list.
 *
 * 0: the shape meets H1 to H4 and keeps the limits, and its field 16 is the sum
 * of its bends times price exactly where the list has prices. *total is its total
 * bends, *fewest the least total bends of all such shapes of the plate or, where
 * the list has prices, their least sum of bends times price, and *ours says
 * whether its angles and right bends are those that plates_write_shape writes.
 * A remark in the shape file, field 15, is passed over.
 *
 * 1 to 15, 23, 29, 38: the plate list is refused. 1 to 6 and 29 also: the shape
 * file is refused, after the plate list was accepted. 17 to 22, 25, 39: as in the
 * table. Never 16 or 24.
 * On a refusal *total and *fewest are 0 and *ours is false. */
uint8_t plates_check_shape(const uint8_t *list, size_t list_len,
                           const uint8_t *shape, size_t shape_len,
                           uint32_t *total, uint32_t *fewest, bool *ours);

/* Writes the listing of a plate list, as text, to the front of `out`.
 *
 * 0: the first *long_ bytes of `out` are the text and the bytes behind them
 * are as before. For an accepted list the text has the lines "revision R",
 * "bends B" and, for each dart, "dart D right R angle A"; for a list refused
 * with N (1 to 15, 23, 29, 38), or with 24 where no shape keeps its limits, it has
 * the one line "refused N". Each line ends with a line feed, and there is no
 * null byte.
 *
 * 16: out_len is less than the length of the text; `out` is unchanged and
 * *long_ is 0. No other number is returned. */
uint8_t plates_write_listing(const uint8_t *list, size_t list_len,
                             uint8_t *out, size_t out_len, size_t *long_);

/* Writes the text of faces of a sound shape file to the front of `out`.
 *
 * The text has a line for each face, the outer one first and the others by
 * their smallest dart. A line starts at the smallest dart of its face and goes
 * round the face, with a triple for each dart: the dart's number, its bend word
 * and its angle, 1 to 4. A bend word has a digit for each bend along the dart, 0
 * for right and 1 for left, and is - where there is none. Numbers have no
 * leading zeros, one space stands between two items, and each line ends with a
 * line feed. There is no null byte.
 *
 * 0: the first *long_ bytes of `out` are the text and the bytes behind them are
 * as before. plates_read_text makes of it the shape file that it came from, byte
 * for byte but for a remark, field 15. 66,962 bytes are always enough.
 *
 * 1 to 15, 17 to 23, 25, 29, 38, 39: as in plates_check_shape. Then 31: some strip
 * bends both ways; never in a file of plates_write_shape. Then 16: out_len is
 * less than the length of the text. On a refusal `out` is unchanged and *long_
 * is 0. */
uint8_t plates_write_text(const uint8_t *list, size_t list_len,
                          const uint8_t *shape, size_t shape_len,
                          uint8_t *out, size_t out_len, size_t *long_);

/* Writes the shape file that a text of faces gives to the front of `out`, with
 * the revision of the plate list and no remark.
 *
 * 0: the first *long_ bytes of `out` are the shape file and the bytes behind
 * them are as before; *bends is its total bends. It is sound and bends no strip
 * both ways, and plates_write_text makes the same text of it. It has field 16
 * where the list has prices. *long_ is 16 + 4 * strips, and 7 more with prices;
 * 535 bytes are always enough.
 *
 * 1 to 15, 23, 29, 38: the plate list is refused. Then 30: some line is not of the
 * form above, or has a word of over 255 digits; a dart may be any number of
 * digits long. Then 31: some word has both digits. Then 32: the darts, line by
 * line, are not those of the plate's faces in their sequence and from their
 * starts, or the words of a strip's two darts are not each other's reversed
 * with 0 and 1 exchanged; so is a text of no bytes. Then 20, 21 and 25 as in
 * plates_check_shape. Then 16: out_len is less than the length of the file. On
 * a refusal `out` is unchanged; *long_ and *bends are 0. */
uint8_t plates_read_text(const uint8_t *list, size_t list_len,
                         const uint8_t *text, size_t text_len,
                         uint8_t *out, size_t out_len,
                         uint32_t *long_, uint32_t *bends);

/* Writes an older plate list or shape file, whose fields may stand in any
 * order, to the front of `out` with its fields in tag order. A first byte of
 * 0x10 or above means a shape file, any other, and none, a plate list.
 *
 * 0: the first *long_ bytes of `out` are the file in order, as long as before
 * and with the same fields, and the bytes behind them are as before. A file
 * that is in order comes back unchanged.
 *
 * 1 to 6: the file is refused, with no regard to the order of its tags; with 2
 * for fields 08 and 16 too, the prices and their sum. 16:
 * out_len is less than file_len. On a refusal `out` is unchanged and *long_
 * is 0. */
uint8_t plates_order_fields(const uint8_t *file, size_t file_len,
                            uint8_t *out, size_t out_len, size_t *long_);

/* The steps of the editor. Each reads a plate list with n posts and m strips and
 * writes the list of the plate after the step to the front of `out`. A step makes
 * strip m, with darts 2m and 2m + 1, and a split and a hang make post n too.
 *
 * 0: the first *long_ bytes of `out` are the list and the bytes behind them are
 * as before. The list is accepted. It has the revision and the outer dart of the
 * list before, its fields in tag order, and no remark. The face of the outer dart
 * stays outer. Where the list before has limits, field 07, so has this one, with
 * one byte more: a split gives the new strip the limit of the old one, and other
 * new strips have 255. So it is with prices, field 08, where other new strips have
 * price 1. *long_ is 19 + 4 * strips, and 3 + strips more with limits and as much
 * with prices, by the strips after the step; 793 bytes are always enough.
 *
 * 1 to 15, 23, 29, 38: the plate list is refused. Then 35, 36 and 37 as told at each
 * step. Then 16: out_len is less than the length of the list. On a refusal `out`
 * is unchanged and *long_ is 0. A journal is replayed by giving each step the list
 * that the step before it wrote; the list before a refused step is its end. */

/* Splits a strip: it ends at the new post, and the new strip runs from there to
 * its old end. Dart 2m + 1 takes the place of 2 * strip + 1 at the old end, and
 * the new post has 2 * strip + 1 and 2m. There are as many faces as before.
 *
 * 35: `strip` is not below m. 36: there are 64 posts. Never 37. */
uint8_t plates_split_strip(const uint8_t *list, size_t list_len, size_t strip,
                           uint8_t *out, size_t out_len, size_t *long_);

/* Hangs a new strip to the new post in the corner where a dart ends: dart 2m
 * stands just before the twin of `dart` in the clockwise order of the post where
 * `dart` ends, so that it comes after `dart` on the face. The new post has dart
 * 2m + 1. There are as many faces as before.
 *
 * 35: `dart` is not below 2m. 36: there are 64 posts. 37: four places are taken
 * at the post where `dart` ends. */
uint8_t plates_hang_strip(const uint8_t *list, size_t list_len, size_t dart,
                          uint8_t *out, size_t out_len, size_t *long_);

/* Joins two corners of a face by a new strip, from the one where `dart` ends to
 * the one where `other` ends: dart 2m stands just before the twin of `dart`, and
 * dart 2m + 1 just before the twin of `other`. There is one face more.
 *
 * 35: `dart` or `other` is not below 2m, or they are equal or of two faces. 36:
 * there are 128 strips. 37: four places are taken at a post where one of them
 * ends, or three where both end at one post. */
uint8_t plates_join_darts(const uint8_t *list, size_t list_len, size_t dart,
                          size_t other, uint8_t *out, size_t out_len,
                          size_t *long_);

/* Gives the current revision of a model from a book of entries. An entry is a
 * model, a revision and the revision replaced, two bytes each, high byte
 * first; the revision replaced is 0 for a model's first entry.
 *
 * 0: every entry of the book is accepted. *revision is the one revision listed
 * for the model that no entry of the model replaces, or 0 where the model is
 * not in the book; no listed revision is 0.
 *
 * 40, 41, 42: the book is refused, at its first bad entry from the front,
 * whichever model that is of; *revision is 0. No other number is returned. */
uint8_t plates_current_revision(const uint8_t *book, size_t book_len,
                                uint16_t model, uint16_t *revision);

#ifdef __cplusplus
}
#endif

#endif
