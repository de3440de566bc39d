/*
 * Softlode: proved access hours. The C interface of the proved library.
 *
 * For x86-64 Linux. `make install` puts this header, libsoftlode.a, libsoftlode.so and softlode.pc in their places, and `pkg-config --cflags
 * --libs softlode` names them to a compiler. Of other libraries it needs memcpy and memset alone.
 *
 * What holds of every function here:
 *
 * - Any bytes and any numbers are safe. A call ends with its answer or with one refusal, whose number stands in `refusal` (0 where there is
 *   none; a page gives the number itself); values that an answer does not have are 0. A refusal writes no byte of an output area or of a
 *   list of questions, and leaves the service record as it came. No call loops for ever, allocates, opens a file, reads a clock, or keeps
 *   anything between calls.
 * - The caller owns all memory. Bytes are lent as a pointer and a length for the time of the call, questions as a pointer and a count; no
 *   pointer is kept. The library reads within the length, and writes only within an output area, to a service record, and to the questions of
 *   a page, of which the answers alone change.
 * - A null pointer with length 0 is an empty input: a rota of no bytes is refusal 1, a table refusal 21. As an output area it is an area
 *   of no bytes: refusal 20, unless the rota is refused; with count 0 it is a list of no questions. A null pointer with another length or
 *   count, and a null service record, are errors of the caller that no library can see.
 * - Lent memory must not overlap: the bytes, the output area, the service record and the questions are different pieces of memory, and
 *   nobody else writes them during the call; where they do, the outcome is undefined. Bytes that are only read may be shared by any number
 *   of calls at the same time.
 * - Calls on different records (and on different output areas and lists of questions) may run at the same time, on any threads. There is no
 *   global state. Calls on one record come one after the other, asks too: an ask leaves the record's values, but may store them again; so
 *   may a page the other fields of its questions.
 * - Stack: softlode_rewrite and softlode_rewrite_size take less than 1 MiB and softlode_rota_tidy less than 32 KiB, whatever the rota; every
 *   other call less than 4 KiB.
 * - Every number that is passed has at least 32 bits, so that 256 is refused and never wraps to 0.
 *
 * Minutes count from 0, which is 00:00 on Monday 1 January 2001, to 210379679, in 31 December 2400. They are those of one clock, the archive's,
 * whose days all have 24 hours: Gregorian dates without summer time and without leap seconds. No call reads a clock: the host says which minute
 * it is, by softlode_minute from the year, month, day, hour and minute that its clock shows. It should be a clock that never jumps, such as
 * standard time all the year: with one that keeps summer time an hour of the spring is not there, and an hour of the autumn is there twice, and
 * going back through it is refusal 41.
 *
 * Volunteers, rights and roles are numbered from 0. Bit i of a set stands for number i.
 *
 * A rota is of format 1, where rows come in any order and may repeat, or of format 3, a tidy rota, where the rows of each kind ascend by role,
 * then by volunteer or right, then by the byte of their hours (always last), and none repeats. Whatever takes the one takes the other.
 *
 * Refusals, by operation, in the order in which they are looked for; enum softlode_refusal names them, and softlode_text says what each means:
 *
 *   reading a rota     1, 2, 3, 4; then each hours record in turn 5 (its first 10 bytes), 6, 7, 5 (its pairs), 8; then 9, 10; then each
 *                      volunteer row in turn 11, 52; then each right row in turn 12, 52
 *   tidying            those of a rota, then 20
 *   rewriting          those of a rota, then 20
 *   a table's size     those of a rota
 *   reading a table    21, 22, 23, 24, 25; then each derived role in turn 26; then each row in turn 27, 28
 *   a question         those of the bytes, then 33, 34, 35
 *   a page             51, then those of the bytes; then in the place of each question 33, 34, 35
 *   the next use       those of a table, then 33, 34, 35
 *   the staff board    those of a table, then 33
 *   a service call     those of the bytes, then 40; then advance 33, 41; open 34, 42, 43; close 34, 44; ask 34, 35, 44
 *   the calendar       33 for a minute; 50 for a date and time
 */
#ifndef SOFTLODE_H
#define SOFTLODE_H

#include <stddef.h>
#include <stdint.h>

#ifdef __cplusplus
extern "C" {
#endif

/*
 * The version of this header, and the same as one number: 1002003 is 1.2.3. The major version is raised whenever something that was there changes,
 * such as a struct that grows; it is in the .so's name, libsoftlode.so.1. The minor one is raised for what is added beside it.
 */
#define SOFTLODE_VERSION_MAJOR 1
#define SOFTLODE_VERSION_MINOR 0
#define SOFTLODE_VERSION_PATCH 0
#define SOFTLODE_VERSION (SOFTLODE_VERSION_MAJOR * 1000000u + SOFTLODE_VERSION_MINOR * 1000u + SOFTLODE_VERSION_PATCH)

/* Limits: no longer rota is accepted; an area that is enough for every table; the last minute; the most questions on a page. */
#define SOFTLODE_LARGEST_ROTA 4460
#define SOFTLODE_ENOUGH_AREA 35212336
#define SOFTLODE_LAST_MINUTE 210379679
#define SOFTLODE_MOST_QUESTIONS 256

/* The refusals. What each means is in softlode_meaning, below. */
enum softlode_refusal {
    SOFTLODE_ROTA_SHORT = 1,
    SOFTLODE_ROTA_FORMAT = 2,
    SOFTLODE_ROTA_CYCLE = 3,
    SOFTLODE_ROTA_COUNTS = 4,
    SOFTLODE_HOURS_CUT = 5,
    SOFTLODE_HOURS_SPAN = 6,
    SOFTLODE_HOURS_PAIRS = 7,
    SOFTLODE_HOURS_PAIR = 8,
    SOFTLODE_ROTA_LENGTH = 9,
    SOFTLODE_ROLE_HOURS = 10,
    SOFTLODE_VOLUNTEER_ROW = 11,
    SOFTLODE_RIGHT_ROW = 12,
    SOFTLODE_AREA_TOO_SMALL = 20,
    SOFTLODE_TABLE_SHORT = 21,
    SOFTLODE_TABLE_FORMAT = 22,
    SOFTLODE_TABLE_CYCLE = 23,
    SOFTLODE_TABLE_COUNTS = 24,
    SOFTLODE_TABLE_LENGTH = 25,
    SOFTLODE_TABLE_ENTRY = 26,
    SOFTLODE_TABLE_ROW = 27,
    SOFTLODE_TABLE_ORDER = 28,
    SOFTLODE_NO_SUCH_MINUTE = 33,
    SOFTLODE_NO_SUCH_VOLUNTEER = 34,
    SOFTLODE_NO_SUCH_RIGHT = 35,
    SOFTLODE_RECORD_UNFIT = 40,
    SOFTLODE_BEFORE_NOW = 41,
    SOFTLODE_ALREADY_OPEN = 42,
    SOFTLODE_NO_RIGHT_NOW = 43,
    SOFTLODE_NOT_OPEN = 44,
    SOFTLODE_NO_SUCH_DATE = 50,
    SOFTLODE_PAGE_TOO_LONG = 51,
    SOFTLODE_ROTA_ORDER = 52
};

/* The counts of an accepted rota's header, and its format. */
typedef struct softlode_rota {
    uint32_t refusal;
    uint32_t cycle;       /* minutes, 1 to 40320 */
    uint32_t hours;       /* hours records */
    uint32_t volunteers;
    uint32_t rights;
    uint32_t roles;
    uint32_t volunteer_rows;
    uint32_t right_rows;
    uint32_t format;      /* 1, or 3 for a tidy rota */
} softlode_rota;

/* The counts of an accepted table's header. */
typedef struct softlode_table {
    uint32_t refusal;
    uint32_t cycle;
    uint32_t volunteers;
    uint32_t rights;
    uint32_t roles;       /* roles of the rota */
    uint32_t derived;     /* derived roles */
    uint32_t rows;
} softlode_table;

/* A tidy rota that was written: the first `length` bytes of the output area. */
typedef struct softlode_tidied {
    uint32_t refusal;
    uint64_t length;
} softlode_tidied;

/* A table that was written: its first `length` bytes of the output area. */
typedef struct softlode_written {
    uint32_t refusal;
    uint32_t derived;
    uint32_t rows;
    uint64_t length;
} softlode_written;

/* What a question or a call of the service tells. */
typedef struct softlode_told {
    uint32_t refusal;
    uint32_t yes;         /* a question, an ask: 1 yes, 0 no */
    uint32_t value;       /* a yes: the lowest role that grants it; an advance: how many sessions it closed */
} softlode_told;

/* When a volunteer can next use a right. */
typedef struct softlode_next {
    uint32_t refusal;
    uint32_t found;       /* 1; 0 for none before the end of 2400 */
    uint32_t minute;      /* the first such minute; 0 for none */
} softlode_next;

/* The staff board: what everyone may use at a minute. */
typedef struct softlode_board {
    uint32_t refusal;
    uint32_t rows;        /* rows of the table that enable their derived role then */
    uint64_t rights[64];  /* the set of rights of each volunteer; empty past the last volunteer */
} softlode_board;

/* The answer to a question on a page. */
typedef struct softlode_place {
    uint32_t refusal;     /* 33, 34, 35, or 0 */
    uint32_t yes;         /* 1 yes, 0 no */
    uint32_t role;        /* a yes: the lowest role that grants it */
} softlode_place;

/* A question on a page, and the place for its answer. */
typedef struct softlode_question {
    uint32_t volunteer;
    uint32_t right;
    uint32_t minute;
    softlode_place answer;
} softlode_question;

/*
 * The service record. The host keeps one, starts it as SOFTLODE_FRESH, and lends it to each call: no call needs another. Its fields may be
 * read, stored and restored at any time between calls (the bytes between them mean nothing); a record that does not fit the lent bytes is
 * refusal 40.
 */
typedef struct softlode_service {
    uint32_t now;         /* a minute */
    uint64_t open;        /* the volunteers whose sessions are open */
} softlode_service;

/* A fresh service record: softlode_service service = SOFTLODE_FRESH; with all fields 0, also those that a later version may add. */
#ifdef __cplusplus
#define SOFTLODE_FRESH {}
#else
#define SOFTLODE_FRESH {0}
#endif

/* A minute of the calendar. */
typedef struct softlode_date_time {
    uint32_t refusal;
    uint32_t year;        /* 2001 to 2400 */
    uint32_t month;       /* 1 to 12 */
    uint32_t day;         /* 1 to 31 */
    uint32_t weekday;     /* 0 Monday to 6 Sunday */
    uint32_t hour;        /* 0 to 23 */
    uint32_t minute;      /* 0 to 59 */
} softlode_date_time;

/* The minute of a date and time. */
typedef struct softlode_minute_number {
    uint32_t refusal;
    uint32_t minute;
} softlode_minute_number;

/* The version of the library, as SOFTLODE_VERSION has that of the header. */
uint32_t softlode_version(void);

/*
 * Whether the library that runs does what this header says: the major version is the same, and it is no older. A host asks once, at its start,
 * since a .so may be another one than it was built with. It is not proved.
 */
static inline int softlode_fits(void) {
    return softlode_version() / 1000000u == SOFTLODE_VERSION_MAJOR && softlode_version() >= SOFTLODE_VERSION;
}

/* Reads a rota: its counts and its format, or 1 to 12, 52. */
softlode_rota softlode_rota_read(const uint8_t *rota, size_t length);

/*
 * Tidies a rota: writes it in format 3, at the start of the output area. The rows of each kind are put in order, each is written once, and they
 * are counted anew; all else is copied. Bytes of the area past the tidy rota's length stay as they are. The rota's refusals, or 20 where the
 * tidy rota is longer than the area; then the whole area stays as it is. The rota's own length is always enough.
 *
 * Two rotas with the same header (format and row counts aside), hours records, roles and sets of rows become the same bytes, whatever the order
 * of their rows, so that what two coordinators send can be compared. A tidy rota becomes the same bytes again. Every question has the same
 * answer before and after, and the table is the same.
 */
softlode_tidied softlode_rota_tidy(const uint8_t *rota, size_t length, uint8_t *area, size_t size);

/* Reads a table: its counts, or 21 to 28. Lend exactly the bytes of the table, not the whole area that it was written to. */
softlode_table softlode_table_read(const uint8_t *table, size_t length);

/* May the volunteer use the right at the minute? Yes with the lowest role, no, or the bytes' refusals, 33, 34, 35. */
softlode_told softlode_rota_question(const uint8_t *rota, size_t length, uint32_t volunteer, uint32_t right, uint32_t minute);
softlode_told softlode_table_question(const uint8_t *table, size_t length, uint32_t volunteer, uint32_t right, uint32_t minute);

/*
 * A page of up to 256 questions to the same bytes, which are judged once. Gives 0, and each place has what the single question would give, 33, 34
 * and 35 included; or 51 for more than 256 questions, whatever they and the bytes are; or the bytes' refusals. Where it gives a refusal no place is
 * written. Other fields of the questions keep their contents. A list of no questions is fine, and its bytes are judged.
 */
uint32_t softlode_rota_page(softlode_question *questions, size_t count, const uint8_t *rota, size_t length);
uint32_t softlode_table_page(softlode_question *questions, size_t count, const uint8_t *table, size_t length);

/*
 * When can the volunteer next use the right, by the table? The first minute from `minute` on, that one included, at which a question would be
 * a yes, or none before the end of 2400; or the table's refusals, 33, 34, 35. It takes little longer than reading the table, however far
 * ahead that minute is.
 */
softlode_next softlode_table_next(const uint8_t *table, size_t length, uint32_t volunteer, uint32_t right, uint32_t minute);

/*
 * The staff board of the minute, by the table: each volunteer's set has the rights for which a question would be a yes, and no other; or the
 * table's refusals, 33. It takes as long as reading the table, and some microseconds more.
 */
softlode_board softlode_table_board(const uint8_t *table, size_t length, uint32_t minute);

/*
 * Rewrites a rota to its table, at the start of the output area. Bytes of the area past the table's length stay as they are. The rota's refusals,
 * or 20 where 16 + 17 * derived + 16 * rows exceeds the size of the area; then the whole area stays as it is. SOFTLODE_ENOUGH_AREA bytes are
 * enough for every rota (32 roles, 65 eras and 513 cells at the most), 65536 for most, and softlode_rewrite_size tells how many. Neighbouring rows
 * of one derived role and one era that touch are written as one, and `rows` counts them so; a table in which they are not joined means the same,
 * and is read as well.
 */
softlode_written softlode_rewrite(const uint8_t *rota, size_t length, uint8_t *area, size_t size);

/*
 * How large a rota's table is, without writing it: its derived roles, rows and length, or the rota's refusals, never 20. Rewriting the rota succeeds
 * exactly with an area that is at least that long, and gives the same numbers. It takes as long as a rewriting but for the writing.
 */
softlode_written softlode_rewrite_size(const uint8_t *rota, size_t length);

/*
 * Moves now to the minute, and closes the session of everyone who holds no right at some minute after the old now, up to and with the new one,
 * and no other: `value` counts them. So a host may pause: nobody sleeps through a closing. Who passes from right to right, or from role to
 * role, without a minute between stays. The old now is not judged again, and an advance to it closes nobody. After the bytes' refusals: 40; 33; 41.
 *
 * On a rota, and on the table of a rota, 400 years take some milliseconds at the most. A table that no rewriting made can change at each minute, and
 * may take a microsecond or two for each minute that is passed: a host that lends such tables advances often, or reckons with that.
 */
softlode_told softlode_rota_advance(softlode_service *service, const uint8_t *rota, size_t length, uint32_t minute);
softlode_told softlode_table_advance(softlode_service *service, const uint8_t *table, size_t length, uint32_t minute);

/* Opens a session for a volunteer who holds a right now. After the bytes' refusals: 40; 34; 42; 43. */
softlode_told softlode_rota_open(softlode_service *service, const uint8_t *rota, size_t length, uint32_t volunteer);
softlode_told softlode_table_open(softlode_service *service, const uint8_t *table, size_t length, uint32_t volunteer);

/* Closes a volunteer's session. After the bytes' refusals: 40; 34; 44. */
softlode_told softlode_rota_close(softlode_service *service, const uint8_t *rota, size_t length, uint32_t volunteer);
softlode_told softlode_table_close(softlode_service *service, const uint8_t *table, size_t length, uint32_t volunteer);

/* May the volunteer, whose session is open, use the right now? After the bytes' refusals: 40; 34; 35; 44. The record stays as it is. */
softlode_told softlode_rota_ask(softlode_service *service, const uint8_t *rota, size_t length, uint32_t volunteer, uint32_t right);
softlode_told softlode_table_ask(softlode_service *service, const uint8_t *table, size_t length, uint32_t volunteer, uint32_t right);

/* A minute as a date and time of day, or 33; and back from these without the weekday, or 50. */
softlode_date_time softlode_date(uint32_t minute);
softlode_minute_number softlode_minute(uint32_t year, uint32_t month, uint32_t day, uint32_t hour, uint32_t minute);

/* What a refusal's number means, in a line; "" for 0. Of a number that is no refusal it says that it does not know it. It is not proved. */
static inline const char *softlode_meaning(uint32_t refusal) {
    switch (refusal) {
    case 0: return "";
    case SOFTLODE_ROTA_SHORT: return "the rota is shorter than its header";
    case SOFTLODE_ROTA_FORMAT: return "this is not a rota of format 1 or 3";
    case SOFTLODE_ROTA_CYCLE: return "the rota's cycle is not 1 to 40320 minutes";
    case SOFTLODE_ROTA_COUNTS: return "a count of the rota is over its limit";
    case SOFTLODE_HOURS_CUT: return "an hours record is cut off";
    case SOFTLODE_HOURS_SPAN: return "an hours record does not begin before it ends, or ends past 2400";
    case SOFTLODE_HOURS_PAIRS: return "an hours record has no pair, or there are more than 256 in all";
    case SOFTLODE_HOURS_PAIR: return "a pair is empty, goes past the cycle, or does not start later than the end of the pair before it";
    case SOFTLODE_ROTA_LENGTH: return "the rota is longer or shorter than its counts say";
    case SOFTLODE_ROLE_HOURS: return "a role names hours that are not there";
    case SOFTLODE_VOLUNTEER_ROW: return "a volunteer row names a volunteer, role or hours that are not there";
    case SOFTLODE_RIGHT_ROW: return "a right row names a right, role or hours that are not there";
    case SOFTLODE_AREA_TOO_SMALL: return "the area is too small for the table or the tidy rota";
    case SOFTLODE_TABLE_SHORT: return "the table is shorter than its header";
    case SOFTLODE_TABLE_FORMAT: return "this is not a table of format 2";
    case SOFTLODE_TABLE_CYCLE: return "the table's cycle is not 1 to 40320 minutes";
    case SOFTLODE_TABLE_COUNTS: return "a count of the table is over its limit";
    case SOFTLODE_TABLE_LENGTH: return "the table is longer or shorter than its counts say";
    case SOFTLODE_TABLE_ENTRY: return "a derived role has a source out of range or order, or a set that is empty or out of range";
    case SOFTLODE_TABLE_ROW: return "a row of the table has a derived role, begin, end, offset or length out of range";
    case SOFTLODE_TABLE_ORDER: return "a row of the table does not follow the row before it";
    case SOFTLODE_NO_SUCH_MINUTE: return "the minute is past 2400";
    case SOFTLODE_NO_SUCH_VOLUNTEER: return "there is no such volunteer";
    case SOFTLODE_NO_SUCH_RIGHT: return "there is no such right";
    case SOFTLODE_RECORD_UNFIT: return "the service record does not fit: its minute is past 2400, or someone open is no such volunteer";
    case SOFTLODE_BEFORE_NOW: return "the minute is before now";
    case SOFTLODE_ALREADY_OPEN: return "the volunteer's session is open already";
    case SOFTLODE_NO_RIGHT_NOW: return "the volunteer holds no right now";
    case SOFTLODE_NOT_OPEN: return "the volunteer's session is not open";
    case SOFTLODE_NO_SUCH_DATE: return "the date or time does not exist or is not in 2001 to 2400";
    case SOFTLODE_PAGE_TOO_LONG: return "a page has more than 256 questions";
    case SOFTLODE_ROTA_ORDER: return "a row of a format 3 rota is not above the row before it";
    default: return "a number that this version does not know";
    }
}

/*
 * The same, for languages that have the library alone. It is the one function that is not part of the proved library: `make` adds it to the archive
 * and to the .so.
 */
const char *softlode_text(uint32_t refusal);

#ifdef __cplusplus
}
#endif

#endif
