/* Reads a note, replaces a statement, has an amendment refused, looks a name up, tells dates, finds nodes in the script, and
 * reads a note in both editions. Exits with 1 where an answer is not the one that this example is about. */
#include "archive.h"

#include <stdio.h>
#include <string.h>

static const char reserved[] = "";
static const char currencies[] = "USD\nEUR\n";
static const char day_counters[] = "";

/* One note: its memory, and the answer of the last call, which carries the state to the next one. */
struct note {
    uint8_t script[ARCHIVE_BYTES];
    uint32_t records[ARCHIVE_RECORDS * ARCHIVE_RECORD_WORDS];
    uint32_t directory[ARCHIVE_STATEMENTS * ARCHIVE_ENTRY_WORDS];
    uint32_t answer[ARCHIVE_ANSWER_WORDS];
};

static const uint8_t *bytes(const char *text)
{
    return (const uint8_t *)text;
}

static void read_note(struct note *n, uint32_t edition, const char *text)
{
    size_t length = strlen(text);
    memcpy(n->script, text, length);
    script_read(n->script, length, edition, bytes(reserved), strlen(reserved), bytes(currencies), strlen(currencies),
                bytes(day_counters), strlen(day_counters), n->records, sizeof n->records / sizeof n->records[0],
                n->directory, sizeof n->directory / sizeof n->directory[0], n->answer);
}

static void amend_note(struct note *n, uint32_t statement, const char *text)
{
    script_amend(n->script, sizeof n->script, statement, bytes(text), strlen(text), bytes(reserved), strlen(reserved),
                 bytes(currencies), strlen(currencies), bytes(day_counters), strlen(day_counters), n->records,
                 sizeof n->records / sizeof n->records[0], n->directory, sizeof n->directory / sizeof n->directory[0],
                 n->answer);
}

static void print_note(const struct note *n, const char *what)
{
    const uint32_t *a = n->answer;
    if (a[ARCHIVE_NUMBER] == ARCHIVE_ACCEPTED) {
        printf("%s: accepted\n", what);
    } else {
        printf("%s: refused on ground %u at line %u, column %u\n", what, (unsigned)a[ARCHIVE_NUMBER],
               (unsigned)a[ARCHIVE_LINE], (unsigned)a[ARCHIVE_COLUMN]);
    }
    printf("  %u bytes, %u statements, %u records, %u tokens\n", (unsigned)a[ARCHIVE_COUNT_BYTES],
           (unsigned)a[ARCHIVE_COUNT_STATEMENTS], (unsigned)a[ARCHIVE_COUNT_RECORDS],
           (unsigned)a[ARCHIVE_COUNT_TOKENS]);
    printf("  %.*s\n", (int)a[ARCHIVE_COUNT_BYTES], (const char *)n->script);
}

static bool holds(const struct note *n, const char *text)
{
    size_t length = strlen(text);
    return n->answer[ARCHIVE_COUNT_BYTES] == length && memcmp(n->script, text, length) == 0;
}

/* Prints the name of the note's first record, and says whether it is the one expected. */
static bool names(const struct note *n, const char *expected)
{
    uint32_t place[ARCHIVE_PLACE_WORDS];
    script_part(n->script, n->answer[ARCHIVE_COUNT_BYTES], bytes(currencies), strlen(currencies), n->records,
                n->directory[ARCHIVE_ENTRY_START], false, place);
    const char *name = (place[0] == 0 ? (const char *)n->script : currencies) + place[1];
    printf("first record: kind %u, %.*s\n", (unsigned)n->records[ARCHIVE_RECORD_KIND], (int)place[2], name);
    return place[2] == strlen(expected) && memcmp(name, expected, place[2]) == 0;
}

/* Prints the date of the note's last record, which is a Pays, and says whether it is the one expected. */
static bool pays_on(const struct note *n, uint32_t year, uint32_t month, uint32_t day)
{
    const uint32_t *record = n->records + (n->answer[ARCHIVE_COUNT_RECORDS] - 1) * ARCHIVE_RECORD_WORDS;
    uint32_t kind = record[ARCHIVE_RECORD_KIND], count = record[ARCHIVE_RECORD_FIELDS];
    uint32_t date[ARCHIVE_DAY_WORDS];
    calendar_day(count, date);
    printf("last record: kind %u, day %u, %04u-%02u-%02u\n", (unsigned)kind, (unsigned)count, (unsigned)date[0],
           (unsigned)date[1], (unsigned)date[2]);
    return kind == ARCHIVE_PAYS && count == calendar_count(year, month, day) && date[0] == year && date[1] == month &&
           date[2] == day;
}

/* Prints the note's latest date, and says whether it is the one expected, with one statement's latest date among it. */
static bool ends_on(const struct note *n, uint32_t statement, uint32_t year, uint32_t month, uint32_t day)
{
    uint32_t latest = n->answer[ARCHIVE_LATEST];
    uint32_t date[ARCHIVE_DAY_WORDS];
    calendar_day(latest, date);
    printf("latest date: %04u-%02u-%02u\n", (unsigned)date[0], (unsigned)date[1], (unsigned)date[2]);
    return latest == calendar_count(year, month, day) &&
           latest == n->directory[statement * ARCHIVE_ENTRY_WORDS + ARCHIVE_ENTRY_LATEST];
}

/* Prints the script from the text of the first node of a kind on, and says whether it begins as expected. */
static bool begins(const struct note *n, uint32_t kind, const char *expected)
{
    const uint32_t *record = n->records;
    for (uint32_t statement = 0; statement < n->answer[ARCHIVE_COUNT_STATEMENTS]; statement++) {
        const uint32_t *entry = n->directory + statement * ARCHIVE_ENTRY_WORDS;
        for (uint32_t i = 0; i < entry[ARCHIVE_ENTRY_RECORDS]; i++, record += ARCHIVE_RECORD_WORDS) {
            if (record[ARCHIVE_RECORD_KIND] == kind) {
                uint32_t at = entry[ARCHIVE_ENTRY_START] + record[ARCHIVE_RECORD_PLACE];
                int rest = (int)(entry[ARCHIVE_ENTRY_END] - at);
                printf("kind %u, byte %u: %.*s\n", (unsigned)kind, (unsigned)at, rest, (const char *)n->script + at);
                return strncmp((const char *)n->script + at, expected, strlen(expected)) == 0;
            }
        }
    }
    return false;
}

/* Prints the kind of the note's last record, which is the outermost node of its last statement, and says whether it is the
 * one expected, in this edition. */
static bool is_last(const struct note *n, uint32_t edition, uint32_t kind)
{
    const uint32_t *record = n->records + (n->answer[ARCHIVE_COUNT_RECORDS] - 1) * ARCHIVE_RECORD_WORDS;
    printf("edition %u, %.*s kind %u\n", (unsigned)n->answer[ARCHIVE_EDITION], (int)n->answer[ARCHIVE_COUNT_BYTES],
           (const char *)n->script, (unsigned)record[ARCHIVE_RECORD_KIND]);
    return n->answer[ARCHIVE_NUMBER] == ARCHIVE_ACCEPTED && n->answer[ARCHIVE_EDITION] == edition &&
           record[ARCHIVE_RECORD_KIND] == kind;
}

/* The same script in each edition, then an amendment, which is read in the edition of the note; and no other edition. */
static bool in_both_editions(struct note *n)
{
    bool good = true;
    read_note(n, ARCHIVE_EDITION_ONE, "-2**2;");
    good &= is_last(n, ARCHIVE_EDITION_ONE, ARCHIVE_POW);
    read_note(n, ARCHIVE_EDITION_TWO, "-2**2;");
    good &= is_last(n, ARCHIVE_EDITION_TWO, ARCHIVE_UNARY_MINUS);
    amend_note(n, 0, "a or b and c;");
    good &= is_last(n, ARCHIVE_EDITION_TWO, ARCHIVE_OR);
    read_note(n, 3, "-2**2;");
    print_note(n, "read in edition 3");
    good &= n->answer[ARCHIVE_NUMBER] == ARCHIVE_NO_EDITION && n->answer[ARCHIVE_EDITION] == 0;
    return good;
}

int main(void)
{
    static struct note n;
    bool good = true;

    read_note(&n, ARCHIVE_EDITION_ONE, "rate = 0.05;\nfloor = 0.01;\npays rate on \"2026-06-30\" in \"EUR\";");
    print_note(&n, "read");
    good &= n.answer[ARCHIVE_NUMBER] == ARCHIVE_ACCEPTED && n.answer[ARCHIVE_COUNT_STATEMENTS] == 3;

    amend_note(&n, 1, "floor = max(0, rate - 0.02);");
    print_note(&n, "amend statement 1");
    good &= n.answer[ARCHIVE_NUMBER] == ARCHIVE_ACCEPTED;
    good &= holds(&n, "rate = 0.05;\nfloor = max(0, rate - 0.02);\npays rate on \"2026-06-30\" in \"EUR\";");

    amend_note(&n, 0, "rate = ;");
    print_note(&n, "amend statement 0");
    good &= n.answer[ARCHIVE_NUMBER] == ARCHIVE_TOKEN && n.answer[ARCHIVE_BYTE] == 7;
    good &= holds(&n, "rate = 0.05;\nfloor = max(0, rate - 0.02);\npays rate on \"2026-06-30\" in \"EUR\";");

    good &= names(&n, "rate");
    good &= pays_on(&n, 2026, 6, 30);
    good &= ends_on(&n, 2, 2026, 6, 30);
    amend_note(&n, 0, "rate = RateIndex(\"SOFR\", \"2026-06-30\", \"2026-12-31\");");
    good &= ends_on(&n, 0, 2026, 12, 31);

    amend_note(&n, 1, "floor = (rate - 0.02) * 2;");
    good &= begins(&n, ARCHIVE_MULTIPLY, "(rate - 0.02) * 2;");
    good &= begins(&n, ARCHIVE_SUBTRACT, "rate - 0.02) * 2;");
    good &= begins(&n, ARCHIVE_PAYS, "pays rate on");
    good &= in_both_editions(&n);
    if (!good) {
        fputs("example: an answer is not the one expected\n", stderr);
    }
    return good ? 0 : 1;
}
