/* libtable_text.a: a run of calls as numbers over a pool of texts, counted or written.
 *
 * A run is five words to a call: which call (below), where its text starts in the pool, how many
 * bytes the text has, and two numbers. Words that are no call are refused with 8 and change nothing;
 * words at the end that are no whole call are left out.
 *
 * The answer is the run's first refusal, 0 for none. The calls after a refused one are played all
 * the same. Flags of 12 and above are none: the run is answered with 8, or with 9 if the cursor is
 * past the buffer, and is not played: the total is 0 or the cursor as it was, nothing is open, no
 * answer is stored and no byte changed.
 *
 * Every pointer is to as many elements as its length says, and none may overlap what buf, total,
 * cursor, open or answers points to. */
#ifndef TABLE_TEXT_H
#define TABLE_TEXT_H

#include <stddef.h>
#include <stdint.h>

#ifdef __cplusplus
extern "C" {
#endif

/* Counts a run: the total is left in *total.
 *
 * Where the answer is 0 and *open (of table_text_count_each) is 0, that is, every builder is finished
 * and every sub-formatter closed, writing the same run from place p answers 0 exactly if p + total is
 * at most buf_len and no string is cut inside a character, and then leaves exactly the text that was
 * counted. A run that leaves something open can be answered with 0 in counting and in writing and yet
 * have pieces missing, since a builder keeps a refusal until it is finished. */
uint8_t table_text_count(uint64_t flags, const uint64_t *calls, size_t calls_len,
                         const uint8_t *text, size_t text_len, size_t *total);

/* Writes a run into buf from place *cursor on: the place after it is left in *cursor.
 *
 * Whatever the answer, only bytes from the place that *cursor was to the place that it is can have
 * changed: all before and all behind are as they were. Where the answer is not 0, what stands between
 * is not to be sent: pieces of later calls may stand there. */
uint8_t table_text_write(uint64_t flags, uint8_t *buf, size_t buf_len, size_t *cursor,
                         const uint64_t *calls, size_t calls_len,
                         const uint8_t *text, size_t text_len);

/* The same, and more is left: in *open how many builders and sub-formatters are open at the end, and
 * in answers[i] the answer to call i, counted from 0, as far as answers has room. What answers has
 * behind the calls is left as it was. */
uint8_t table_text_count_each(uint64_t flags, const uint64_t *calls, size_t calls_len,
                              const uint8_t *text, size_t text_len, size_t *total,
                              size_t *open, uint8_t *answers, size_t answers_len);
uint8_t table_text_write_each(uint64_t flags, uint8_t *buf, size_t buf_len, size_t *cursor,
                              const uint64_t *calls, size_t calls_len,
                              const uint8_t *text, size_t text_len,
                              size_t *open, uint8_t *answers, size_t answers_len);

/* Flags, a number below 12: one of the first three, plus any of the other two. The lower digits are
 * of hexadecimal. */
enum {
    TABLE_TEXT_DECIMAL = 0,
    TABLE_TEXT_HEXADECIMAL = 4,
    TABLE_TEXT_BINARY = 8,
    TABLE_TEXT_LOWER = 2,
    TABLE_TEXT_ALTERNATE = 1
};

/* The first word of a call. In brackets: its text, and its two numbers a and b. */
enum {
    TABLE_TEXT_OPEN_STRUCT = 0,     /* [name] */
    TABLE_TEXT_OPEN_TUPLE = 1,      /* [name] */
    TABLE_TEXT_OPEN_LIST = 2,
    TABLE_TEXT_OPEN_SET = 3,
    TABLE_TEXT_FIELD = 4,           /* of a struct [name] */
    TABLE_TEXT_TUPLE_FIELD = 5,
    TABLE_TEXT_ENTRY = 6,           /* of a list or a set */
    TABLE_TEXT_FINISH = 7,          /* of the innermost builder */
    TABLE_TEXT_SUB_FORMATTER = 8,   /* [a: its flags, below 12] */
    TABLE_TEXT_END_FORMATTER = 9,
    TABLE_TEXT_STR = 10,            /* [UTF-8, a and b: the range] */
    TABLE_TEXT_STR_DEBUG = 11,      /* the same, quoted */
    TABLE_TEXT_ASCII = 12,          /* [ASCII, a and b: the range] */
    TABLE_TEXT_ASCII_DEBUG = 13,    /* the same, quoted */
    TABLE_TEXT_CHAR = 14,           /* [a: the code] */
    TABLE_TEXT_CHAR_DEBUG = 15,     /* the same, quoted */
    TABLE_TEXT_REPEATED = 16,       /* [a: the byte, b: how often] */
    TABLE_TEXT_UNSIGNED = 17,       /* [a: the number, b: its width] */
    TABLE_TEXT_UNSIGNED_DEBUG = 18, /* the same, by the flags */
    TABLE_TEXT_SIGNED = 19,         /* [a: the two's complement at the width, b: the width] */
    TABLE_TEXT_SIGNED_DEBUG = 20    /* the same, by the flags */
};

/* The width of an integer. */
enum { TABLE_TEXT_8_BITS = 0, TABLE_TEXT_16_BITS = 1, TABLE_TEXT_32_BITS = 2, TABLE_TEXT_64_BITS = 3 };

/* Answers. */
enum {
    TABLE_TEXT_DONE = 0,
    TABLE_TEXT_NOT_ENOUGH_SPACE = 1,
    TABLE_TEXT_NOT_ASCII = 2,
    TABLE_TEXT_NOT_ON_CHAR_BOUNDARY = 3,
    TABLE_TEXT_NOT_UTF8 = 4,
    TABLE_TEXT_NOT_A_CHAR = 5,
    TABLE_TEXT_COUNT_TOO_LARGE = 6,
    TABLE_TEXT_TOO_DEEP = 7,
    TABLE_TEXT_WRONG_CALL = 8,
    TABLE_TEXT_BAD_CURSOR = 9
};

#ifdef __cplusplus
}
#endif

#endif
