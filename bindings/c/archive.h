/*
 * The archive's calls for C: a note's script is read into records, single statements of it are replaced, the names that
 * records hold are looked up, and days are counted. Link libarchive.a, which the command tools/archive makes.
 *
 * What holds for all calls:
 *
 * - All memory is the caller's. A call keeps no pointer once it has returned, allocates nothing, and has no state of its
 *   own, so calls on different memory may run at the same time.
 * - A slice is a pointer and a length, in bytes for uint8_t and in words for uint32_t. No pointer may be NULL, and one to
 *   words is aligned as a uint32_t is, even where the length is 0; a slice of length 0 may point anywhere else. `answer`,
 *   `record`, `place` and `day` are such pointers too, each to as many words as its declaration says.
 * - What a call writes, `answer` and `place` among it, may overlap nothing else that the same call is lent, be it read or
 *   written, `record` and the lists included. What is only read may overlap.
 * - Nothing else is asked. Any bytes, any words and any lengths are answered, none is trusted to be in order. Slices of
 *   4 GiB and more are answered too, and no word of an answer is cut: a script or text without a zero byte among its first
 *   16,385 bytes is too long, whatever follows, and no refusal is at a byte past 16,384. Only the words of `place` are the
 *   low 32 bits of a place, which is the place itself in slices below 4 GiB; a script that was read has no others.
 * - A refusal changes nothing but the answer.
 *
 * The three lists hold names, each ended by a line feed, the last one too: at most 256 names a list, no name twice, a name
 * of 1 to 32 bytes from 0x20 to 0x7E without the quote 0x22. Currencies have three capital letters, and USD comes first;
 * the other two lists may be empty. Pass the same lists to all calls on one note: records name a currency by its place.
 */
#ifndef GOREMBIIN_ARCHIVE_H
#define GOREMBIIN_ARCHIVE_H

#include <stdbool.h>
#include <stddef.h>
#include <stdint.h>

#ifdef __cplusplus
extern "C" {
#endif

/* Widths, in words. */
enum {
    ARCHIVE_RECORD_WORDS = 8, /* of a node, see below; children stand before parents */
    ARCHIVE_ENTRY_WORDS = 5,  /* of a statement, see below */
    ARCHIVE_ANSWER_WORDS = 10,
    ARCHIVE_PLACE_WORDS = 3,
    ARCHIVE_DAY_WORDS = 3 /* year, month, day */
};

/* Limits. Slices of this size have room for every script; smaller ones will do for smaller scripts. */
enum {
    ARCHIVE_BYTES = 16384,
    ARCHIVE_TOKENS = 4096,
    ARCHIVE_RECORDS = 2048,
    ARCHIVE_STATEMENTS = 512,
    ARCHIVE_DEPTH = 32
};

/* The count of the last day, 9999-12-31. */
enum { ARCHIVE_LAST_COUNT = 3652059 };

/*
 * The editions of the script language. The second differs from the first in these points, and in no other:
 *
 * - `**` groups right: `2**3**2` is 2**(3**2), where the first edition reads (2**3)**2. The chain is not counted for depth.
 * - `**` binds tighter than a sign before it: `-2**2` is -(2**2), where the first edition reads (-2)**2. The right side of a
 *   `**` may begin with signs, which take in the `**` behind them. A minus before a number that no `**` follows makes a
 *   negated number in both editions; each other minus is counted for depth. A plus before a power is not the power's text:
 *   in `+a**b` the power is at `a`, in the first edition at the plus.
 * - `and` binds tighter than `or`: `a or b and c` is a or (b and c), where the first edition reads (a or b) and c.
 * - A line break behind the name that begins a statement means nothing: `x`, line feed, `= 1;` is an assignment. The first
 *   edition refuses it.
 */
enum { ARCHIVE_EDITION_ONE = 1, ARCHIVE_EDITION_TWO = 2 };

/*
 * The words of an answer. Lines and columns count from 1. A column counts the characters of UTF-8: it is 1 more than the
 * bytes before the place in its line that are no continuation bytes (0x80 to 0xBF), each byte judged alone. An accepted
 * call answers 0, 0, 1, 1 and then the state of the whole script: four counts, its latest date and its edition. A refused
 * one answers a ground and its place, which is in the script for script_read and in the new text for script_amend, and then
 * the state: 0 for script_read, for script_amend the one that it was given.
 */
enum {
    ARCHIVE_NUMBER = 0, /* 0 accepted, else one of the grounds below */
    ARCHIVE_BYTE = 1,
    ARCHIVE_LINE = 2,
    ARCHIVE_COLUMN = 3,
    ARCHIVE_COUNT_BYTES = 4, /* bytes of the script that are used */
    ARCHIVE_COUNT_STATEMENTS = 5,
    ARCHIVE_COUNT_RECORDS = 6,
    ARCHIVE_COUNT_TOKENS = 7,
    ARCHIVE_LATEST = 8, /* the greatest of the entries' latest dates, 0 where there is none */
    ARCHIVE_EDITION = 9 /* the edition that it was read in */
};

/*
 * The words of a directory entry, one entry for each top-level statement. The latest date is the greatest day count among
 * the dates of the statement's records, those of its bodies included, and 0 where they have none: of ARCHIVE_SPOT,
 * ARCHIVE_EQUITY, ARCHIVE_DF, ARCHIVE_RATE_INDEX (both its dates) and ARCHIVE_PAYS. The strings of a cvg are no dates.
 */
enum {
    ARCHIVE_ENTRY_START = 0, /* its first byte */
    ARCHIVE_ENTRY_END = 1,   /* the byte past its last token */
    ARCHIVE_ENTRY_RECORDS = 2,
    ARCHIVE_ENTRY_TOKENS = 3,
    ARCHIVE_ENTRY_LATEST = 4
};

/*
 * The words of a record. All places in it count from the first byte of its statement, ARCHIVE_ENTRY_START of the entry.
 *
 * Its own place is the byte at which the text that the node was read from begins, with its first token. Of a name or a call
 * that is its name, of a string its opening quote, of a list its bracket, of ARCHIVE_PAYS, ARCHIVE_IF and ARCHIVE_FOR_EACH
 * the word, of ARCHIVE_UNARY_MINUS and of a negated number the minus. Parentheses round a node and a plus before it are not
 * its text; but a node with a left part, such as a sum, a comparison or an index, begins where that part's text begins,
 * these included: in `(a + b) * c` the product is at the parenthesis and the sum at `a`, in `+a[0]` the index is at `a`.
 * ARCHIVE_ASSIGN is at its name, and in `x += e` and `x pays e` both variables and the sum or other node are, too.
 */
enum {
    ARCHIVE_RECORD_KIND = 0,
    ARCHIVE_RECORD_NODES = 1,  /* nodes in its subtree, itself among them; their records end with its own */
    ARCHIVE_RECORD_PARTS = 2,  /* its direct parts */
    ARCHIVE_RECORD_FIELDS = 3, /* the first of its four fields f1 to f4 */
    ARCHIVE_RECORD_PLACE = 7
};

/*
 * The kinds of a record, and its fields f1 to f4 where they are used. A date is its day count, 0001-01-01 being 1 and
 * 9999-12-31 ARCHIVE_LAST_COUNT, so that the days from one date to another are the difference; calendar_day says which day
 * it is. A currency is its place in the list, from 0, plus 1. Of both, 0 is absent.
 */
enum {
    ARCHIVE_VARIABLE = 1, /* start, length of the name */
    ARCHIVE_CONSTANT = 2, /* high and low half of the bits of a double, then start, length of the literal without sign */
    ARCHIVE_TRUE = 3,
    ARCHIVE_FALSE = 4,
    ARCHIVE_STRING = 5, /* start, length of what is between the quotes */
    ARCHIVE_ARRAY = 6,
    ARCHIVE_UNARY_MINUS = 7,
    ARCHIVE_ADD = 8,
    ARCHIVE_SUBTRACT = 9,
    ARCHIVE_MULTIPLY = 10,
    ARCHIVE_DIVIDE = 11,
    ARCHIVE_POW = 12,
    ARCHIVE_EQUAL = 13,
    ARCHIVE_NOT_EQUAL = 14,
    ARCHIVE_SUPERIOR = 15,
    ARCHIVE_INFERIOR = 16,
    ARCHIVE_SUPERIOR_OR_EQUAL = 17,
    ARCHIVE_INFERIOR_OR_EQUAL = 18,
    ARCHIVE_AND = 19,
    ARCHIVE_OR = 20,
    ARCHIVE_LN = 21,
    ARCHIVE_EXP = 22,
    ARCHIVE_MIN = 23,
    ARCHIVE_MAX = 24,
    ARCHIVE_CVG = 25,
    ARCHIVE_FIF = 26,
    ARCHIVE_RANGE = 27,
    ARCHIVE_INDEX = 28,
    ARCHIVE_APPEND = 29,
    ARCHIVE_MEAN = 30,
    ARCHIVE_STD = 31,
    ARCHIVE_SPOT = 32,       /* two currencies, date */
    ARCHIVE_EQUITY = 33,     /* start, length of the name, date */
    ARCHIVE_DF = 34,         /* date, start of the curve's name (0 absent), its length */
    ARCHIVE_RATE_INDEX = 35, /* start, length of the name, two dates */
    ARCHIVE_PAYS = 36,       /* date, currency */
    ARCHIVE_ASSIGN = 37,
    ARCHIVE_IF = 38,      /* first_else: 0 without else, or 1 plus the statements of the first body */
    ARCHIVE_FOR_EACH = 39 /* start, length of the loop variable */
};

/* The grounds of a refusal. */
enum {
    ARCHIVE_ACCEPTED = 0,
    ARCHIVE_TOO_LONG = 1,           /* script or new text too long */
    ARCHIVE_LIST = 2,               /* list malformed */
    ARCHIVE_CHARACTER = 3,          /* invalid character */
    ARCHIVE_OPEN_STRING = 4,        /* string not closed */
    ARCHIVE_NUMBER_MALFORMED = 5,   /* number with two dots */
    ARCHIVE_NUMBER_TOO_LONG = 6,    /* digits over 9007199254740992, or more than 15 after the dot */
    ARCHIVE_TOO_MANY_TOKENS = 7,
    ARCHIVE_TOKEN = 8,              /* token not allowed here, end included */
    ARCHIVE_RESERVED = 9,           /* reserved word */
    ARCHIVE_ARGUMENTS = 10,         /* argument count, or unknown method */
    ARCHIVE_DATE = 11,
    ARCHIVE_CURRENCY = 12,
    ARCHIVE_DAY_COUNTER = 13,
    ARCHIVE_CVG_ARGUMENT = 14,      /* cvg argument not a string */
    ARCHIVE_TOO_DEEP = 15,
    ARCHIVE_NO_ROOM = 16,           /* over a limit, or a lent slice is too short */
    ARCHIVE_NO_STATEMENT = 17,      /* no such statement */
    ARCHIVE_BAD_END = 18,           /* new text ends badly */
    ARCHIVE_ZERO_BYTE = 19,         /* zero byte in new text */
    ARCHIVE_DIRECTORY = 20,         /* directory not in order, or not that of this state: no reading left this memory */
    ARCHIVE_NO_EDITION = 26         /* an edition other than 1 and 2; this goes before all other grounds */
};

/*
 * Reads a script: the bytes before the first zero byte of its slice, or all. `edition` is ARCHIVE_EDITION_ONE or
 * ARCHIVE_EDITION_TWO; the state keeps it, and amendments are read by it.
 *
 * Accepted, the first words of `records` and of `directory` are the script's, as many as the answer counts; the words
 * behind them are as they were. The script is not written. `answer` is written whole, and not read.
 */
void script_read(const uint8_t *script, size_t script_bytes, uint32_t edition,
                 const uint8_t *reserved, size_t reserved_bytes,
                 const uint8_t *currencies, size_t currencies_bytes,
                 const uint8_t *day_counters, size_t day_counters_bytes,
                 uint32_t *records, size_t records_words,
                 uint32_t *directory, size_t directory_words,
                 uint32_t answer[ARCHIVE_ANSWER_WORDS]);

/*
 * Replaces the bytes of one statement, counted from 0, by those of `text`, which may hold one statement, several or none.
 *
 * At entry the last six words of `answer` are the state of the note, as script_read or the last script_amend left them,
 * and `script`, `records` and `directory` are its memory; `script` is the whole room, of which the first bytes are used.
 * The text is read in the edition of that state. Accepted, the three slices are what script_read of the new script would
 * leave in this edition, room that became free is 0, and `answer` has the new state, with the same edition. Refused, the
 * slices are as they were, and `answer` still ends in the same state. So one answer can be passed from call to call. A
 * refused script_read leaves edition 0, on which every script_amend is refused with ARCHIVE_NO_EDITION.
 */
void script_amend(uint8_t *script, size_t script_bytes, uint32_t statement,
                  const uint8_t *text, size_t text_bytes,
                  const uint8_t *reserved, size_t reserved_bytes,
                  const uint8_t *currencies, size_t currencies_bytes,
                  const uint8_t *day_counters, size_t day_counters_bytes,
                  uint32_t *records, size_t records_words,
                  uint32_t *directory, size_t directory_words,
                  uint32_t answer[ARCHIVE_ANSWER_WORDS]);

/*
 * Where the name of a record stands: its first name, or with `second` the second currency of a Spot. `script_bytes` is the
 * count of used bytes, and `start` the first byte of the record's statement, from the directory.
 *
 * `place` becomes 0 for the script or 1 for the list of currencies, then first byte, then length. A record that has no
 * such name, or names a place outside, answers 0, 0, 0. Nothing else is written.
 */
void script_part(const uint8_t *script, size_t script_bytes,
                 const uint8_t *currencies, size_t currencies_bytes,
                 const uint32_t record[ARCHIVE_RECORD_WORDS], uint32_t start, bool second,
                 uint32_t place[ARCHIVE_PLACE_WORDS]);

/*
 * The count of a day, as records have it: 1 for 0001-01-01, ARCHIVE_LAST_COUNT for 9999-12-31. 0 where there is no such day
 * in the Gregorian calendar of those years; a month counts from 1.
 */
uint32_t calendar_count(uint32_t year, uint32_t month, uint32_t day);

/*
 * The day that has a count: `day` becomes its year, month and day. For 0, and for what is above ARCHIVE_LAST_COUNT, there is
 * none, and `day` becomes 0, 0, 0.
 */
void calendar_day(uint32_t count, uint32_t day[ARCHIVE_DAY_WORDS]);

#ifdef __cplusplus
}
#endif

#endif
