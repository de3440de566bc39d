/*
 * A host of the library, as a server would be one: it loads a rota, rewrites it to its table, tidies it, keeps one service record through a week
 * of the calendar, and shows what refusals look like. Every call is made on the rota and on the table, each with a record of its own, and the
 * two must agree. rust/softlode/examples/host.rs does the same by the wrapper; data/week.host is what both print for data/week.rota.
 *
 *     host ROTA
 *
 * Status: 0; 1 for a rota that is refused; 2, with a line on standard error, where a file cannot be read, the arguments are wrong, there is no
 * memory or the library is of another version.
 */
#include <inttypes.h>
#include <stdio.h>
#include <stdlib.h>
#include <string.h>

#include "softlode.h"

/* rust/softlode/src/ffi.rs tests the same numbers. */
_Static_assert(sizeof(softlode_rota) == 36 && offsetof(softlode_rota, format) == 32, "softlode_rota");
_Static_assert(sizeof(softlode_table) == 28 && offsetof(softlode_table, rows) == 24, "softlode_table");
_Static_assert(sizeof(softlode_tidied) == 16 && offsetof(softlode_tidied, length) == 8, "softlode_tidied");
_Static_assert(sizeof(softlode_written) == 24 && offsetof(softlode_written, length) == 16, "softlode_written");
_Static_assert(sizeof(softlode_told) == 12 && offsetof(softlode_told, value) == 8, "softlode_told");
_Static_assert(sizeof(softlode_next) == 12 && offsetof(softlode_next, minute) == 8, "softlode_next");
_Static_assert(sizeof(softlode_board) == 520 && offsetof(softlode_board, rights) == 8, "softlode_board");
_Static_assert(sizeof(softlode_place) == 12 && offsetof(softlode_place, role) == 8, "softlode_place");
_Static_assert(sizeof(softlode_question) == 24 && offsetof(softlode_question, answer) == 12, "softlode_question");
_Static_assert(sizeof(softlode_service) == 16 && offsetof(softlode_service, open) == 8, "softlode_service");
_Static_assert(sizeof(softlode_date_time) == 28 && offsetof(softlode_date_time, minute) == 24, "softlode_date_time");
_Static_assert(sizeof(softlode_minute_number) == 8 && offsetof(softlode_minute_number, minute) == 4, "softlode_minute_number");

/* One byte more than any rota has: what a file has past it makes no difference, it is too long. */
enum { FILE_LIMIT = SOFTLODE_LARGEST_ROTA + 1, HOUR = 60, DAY = 24 * HOUR };

/* The two services, and what they have been doing. */
struct host {
    const uint8_t *rota;
    size_t rota_length;
    const uint8_t *table;
    size_t table_length;
    softlode_service service; /* with the rota */
    softlode_service mirror;  /* with the table */
    unsigned advances, closed, opens, closes, yes, no, refused;
};

static void fail(int status, const char *what, const char *name) {
    fprintf(stderr, "host: %s%s\n", what, name);
    exit(status);
}

static size_t load(const char *name, uint8_t *bytes) {
    FILE *file = fopen(name, "rb");
    if (file == NULL) fail(2, "cannot read ", name);
    size_t length = fread(bytes, 1, FILE_LIMIT, file);
    if (ferror(file)) fail(2, "cannot read ", name);
    fclose(file);
    return length;
}

/* The table of a rota, in memory that has its size, and its counts; or the refusal. */
static softlode_written table_of(const uint8_t *rota, size_t length, uint8_t **table) {
    softlode_written size = softlode_rewrite_size(rota, length);
    if (size.refusal != 0) return size;
    *table = malloc(size.length);
    if (*table == NULL) fail(2, "no memory", "");
    return softlode_rewrite(rota, length, *table, size.length);
}

/* What both services told, which must be the same and leave the same. */
static softlode_told agreed(const struct host *host, softlode_told a, softlode_told b) {
    if (a.refusal != b.refusal || a.yes != b.yes || a.value != b.value || host->service.now != host->mirror.now ||
        host->service.open != host->mirror.open)
        fail(1, "the rota and the table disagree", "");
    return a;
}

static softlode_told advance(struct host *host, uint32_t minute) {
    softlode_told told = softlode_rota_advance(&host->service, host->rota, host->rota_length, minute);
    return agreed(host, told, softlode_table_advance(&host->mirror, host->table, host->table_length, minute));
}

static softlode_told open_session(struct host *host, uint32_t volunteer) {
    softlode_told told = softlode_rota_open(&host->service, host->rota, host->rota_length, volunteer);
    return agreed(host, told, softlode_table_open(&host->mirror, host->table, host->table_length, volunteer));
}

static softlode_told close_session(struct host *host, uint32_t volunteer) {
    softlode_told told = softlode_rota_close(&host->service, host->rota, host->rota_length, volunteer);
    return agreed(host, told, softlode_table_close(&host->mirror, host->table, host->table_length, volunteer));
}

static softlode_told ask(struct host *host, uint32_t volunteer, uint32_t right) {
    softlode_told told = softlode_rota_ask(&host->service, host->rota, host->rota_length, volunteer, right);
    return agreed(host, told, softlode_table_ask(&host->mirror, host->table, host->table_length, volunteer, right));
}

static softlode_told question(const struct host *host, uint32_t volunteer, uint32_t right, uint32_t minute) {
    softlode_told told = softlode_rota_question(host->rota, host->rota_length, volunteer, right, minute);
    return agreed(host, told, softlode_table_question(host->table, host->table_length, volunteer, right, minute));
}

static int is_open(const struct host *host, uint32_t volunteer) { return host->service.open >> volunteer & 1; }

static void show_date(uint32_t minute) {
    static const char *const weekdays[] = {"Mon", "Tue", "Wed", "Thu", "Fri", "Sat", "Sun"};
    softlode_date_time date = softlode_date(minute);
    printf("%s %04" PRIu32 "-%02" PRIu32 "-%02" PRIu32 " %02" PRIu32 ":%02" PRIu32, weekdays[date.weekday], date.year, date.month, date.day,
           date.hour, date.minute);
}

static void show_refusal(const char *what, uint32_t refusal) {
    if (refusal == 0)
        printf("%saccepted\n", what);
    else
        printf("%srefused %" PRIu32 ": %s\n", what, refusal, softlode_meaning(refusal));
}

/* The rota with its rows in order, as two coordinators compare theirs. Its table must be the same, and tidied again it must be the same. */
static void show_tidy(const struct host *host) {
    static uint8_t tidy[FILE_LIMIT], again[FILE_LIMIT];
    uint8_t *table = NULL;
    softlode_tidied tidied = softlode_rota_tidy(host->rota, host->rota_length, tidy, sizeof tidy);
    softlode_rota counts = softlode_rota_read(tidy, tidied.length);
    softlode_written written = table_of(tidy, tidied.length, &table);
    if (counts.format != 3 || written.length != host->table_length || memcmp(table, host->table, host->table_length) != 0)
        fail(1, "the tidy rota has another table", "");
    free(table);
    if (softlode_rota_tidy(tidy, tidied.length, again, sizeof again).length != tidied.length || memcmp(again, tidy, tidied.length) != 0)
        fail(1, "the tidy rota is tidied to another", "");
    printf("tidy rota: %" PRIu32 " + %" PRIu32 " rows, %" PRIu64 " bytes, with the same table\n", counts.volunteer_rows, counts.right_rows,
           tidied.length);
}

/* An hour begins: whoever holds a right now comes, and asks for every right; even numbers leave at noon. */
static void spend_hour(struct host *host, softlode_rota counts, uint32_t minute) {
    uint32_t closed = advance(host, minute).value;
    host->advances++;
    host->closed += closed;
    if (closed > 0) {
        show_date(minute);
        printf(" %" PRIu32 " closed by the hour, open %016" PRIx64 "\n", closed, host->service.open);
    }
    for (uint32_t volunteer = 0; volunteer < counts.volunteers; volunteer++) {
        if (is_open(host, volunteer)) continue;
        if (open_session(host, volunteer).refusal != 0) {
            host->refused++;
            continue;
        }
        host->opens++;
        show_date(minute);
        printf(" volunteer %" PRIu32 " opens; right by role:", volunteer);
        for (uint32_t right = 0; right < counts.rights; right++) {
            softlode_told told = ask(host, volunteer, right);
            if (told.yes) {
                host->yes++;
                printf(" %" PRIu32 " by %" PRIu32, right, told.value);
            } else {
                host->no++;
            }
        }
        printf("\n");
    }
    if (softlode_date(minute).hour != 12) return;
    for (uint32_t volunteer = 0; volunteer < counts.volunteers; volunteer += 2) {
        if (close_session(host, volunteer).refusal != 0) {
            host->refused++;
            continue;
        }
        host->closes++;
        show_date(minute);
        printf(" volunteer %" PRIu32 " closes\n", volunteer);
    }
}

/* Who may use each right at a minute, by questions without a service. */
static void show_users(const struct host *host, softlode_rota counts, uint32_t minute) {
    for (uint32_t right = 0; right < counts.rights; right++) {
        show_date(minute);
        printf(" right %" PRIu32 " may be used by", right);
        for (uint32_t volunteer = 0; volunteer < counts.volunteers; volunteer++)
            if (question(host, volunteer, right, minute).yes) printf(" %" PRIu32, volunteer);
        printf("\n");
    }
}

/* The staff board of a minute, as a screen in the hall shows it: who is on, and with which rights. Single questions must say the same. */
static void show_board(const struct host *host, softlode_rota counts, uint32_t minute) {
    softlode_board board = softlode_table_board(host->table, host->table_length, minute);
    int is_anyone = 0;
    show_date(minute);
    printf(" staff board, by %" PRIu32 " row%s of the table:\n", board.rows, board.rows == 1 ? "" : "s");
    for (uint32_t volunteer = 0; volunteer < counts.volunteers; volunteer++) {
        uint64_t rights = board.rights[volunteer];
        if (rights != 0) {
            printf("  volunteer %" PRIu32 " may use rights", volunteer);
            is_anyone = 1;
        }
        for (uint32_t right = 0; right < counts.rights; right++) {
            if ((rights >> right & 1) != question(host, volunteer, right, minute).yes) fail(1, "the board and a question disagree", "");
            if (rights >> right & 1) printf(" %" PRIu32, right);
        }
        if (rights != 0) printf("\n");
    }
    printf(is_anyone ? "  nobody else may use a right\n" : "  nobody may use a right\n");
}

/* The page of a volunteer at a minute, as a tree viewer shows it: a button for each right, grey where it may not be used. One page to the rota and
 * one to the table answer all, and single questions must say the same. */
static void show_page(const struct host *host, softlode_rota counts, uint32_t volunteer, uint32_t minute) {
    softlode_question page[SOFTLODE_MOST_QUESTIONS], mirror[SOFTLODE_MOST_QUESTIONS];
    for (uint32_t right = 0; right < counts.rights; right++)
        page[right] = mirror[right] = (softlode_question){.volunteer = volunteer, .right = right, .minute = minute};
    if (softlode_rota_page(page, counts.rights, host->rota, host->rota_length) != 0 ||
        softlode_table_page(mirror, counts.rights, host->table, host->table_length) != 0)
        fail(1, "a page is refused", "");
    show_date(minute);
    printf(" page of volunteer %" PRIu32 ":", volunteer);
    for (uint32_t right = 0; right < counts.rights; right++) {
        softlode_place place = page[right].answer, other = mirror[right].answer;
        softlode_told told = question(host, volunteer, right, minute);
        if (place.refusal != told.refusal || place.yes != told.yes || place.role != told.value || other.refusal != told.refusal ||
            other.yes != told.yes || other.role != told.value)
            fail(1, "a page and a question disagree", "");
        printf(place.yes ? " [%" PRIu32 "]" : " %" PRIu32, right);
    }
    printf("\n");
}

static void show_when(uint32_t minute, const char *after) {
    printf(" on ");
    show_date(minute);
    printf("%s", after);
}

/* When each volunteer can next use each right, from a minute on, as a journey is planned: next Sunday's discard, or never again. */
static void show_next(const struct host *host, softlode_rota counts, uint32_t minute) {
    for (uint32_t volunteer = 0; volunteer < counts.volunteers; volunteer++) {
        softlode_next last = {0};
        show_date(minute);
        printf(" volunteer %" PRIu32 " can", volunteer);
        for (uint32_t right = 0; right < counts.rights; right++) {
            softlode_next next = softlode_table_next(host->table, host->table_length, volunteer, right, minute);
            if (!next.found) continue;
            if (!question(host, volunteer, right, next.minute).yes) fail(1, "a next use that is none", "");
            if (last.found && next.minute != last.minute) show_when(last.minute, ",");
            printf("%s %" PRIu32, last.found ? "" : " next use rights", right);
            last = next;
        }
        if (last.found)
            show_when(last.minute, "\n");
        else
            printf(" use no right any more\n");
    }
}

/* Damaged bytes and wrong numbers: each is one refusal, and leaves the record. */
static void show_refusals(struct host *host, uint8_t *rota) {
    uint8_t small[8];
    static softlode_question long_page[SOFTLODE_MOST_QUESTIONS + 1];
    show_refusal("the rota without its last byte: ", softlode_rota_read(rota, host->rota_length - 1).refusal);
    rota[0] ^= 0xff;
    show_refusal("the rota with another first byte: ", softlode_rota_read(rota, host->rota_length).refusal);
    rota[0] ^= 0xff;
    uint8_t format = rota[0];
    rota[0] = 3;
    show_refusal("the rota as a tidy one: ", softlode_rota_read(rota, host->rota_length).refusal);
    rota[0] = format;
    show_refusal("an area of 8 bytes: ", softlode_rewrite(rota, host->rota_length, small, sizeof small).refusal);
    show_refusal("an area of 8 bytes to tidy in: ", softlode_rota_tidy(rota, host->rota_length, small, sizeof small).refusal);
    show_refusal("the table without its last byte: ", softlode_table_read(host->table, host->table_length - 1).refusal);
    show_refusal("the next use by volunteer 256: ", softlode_table_next(host->table, host->table_length, 256, 0, 0).refusal);
    show_refusal("the board of minute 210379680: ", softlode_table_board(host->table, host->table_length, SOFTLODE_LAST_MINUTE + 1).refusal);
    show_refusal("a page of 257 questions: ", softlode_table_page(long_page, SOFTLODE_MOST_QUESTIONS + 1, host->table, host->table_length));
    show_refusal("an open of volunteer 256: ", open_session(host, 256).refusal);
    show_refusal("an advance to minute 0: ", advance(host, 0).refusal);
    show_refusal("29 February 2023: ", softlode_minute(2023, 2, 29, 0, 0).refusal);
}

int main(int argc, char **argv) {
    static uint8_t rota[FILE_LIMIT];
    uint8_t *table = NULL;
    if (!softlode_fits()) fail(2, "the library is of another version", "");
    if (argc != 2) fail(2, "usage: host ROTA", "");
    struct host host = {.rota = rota, .rota_length = load(argv[1], rota), .service = SOFTLODE_FRESH, .mirror = SOFTLODE_FRESH};

    softlode_rota counts = softlode_rota_read(rota, host.rota_length);
    softlode_written written = table_of(rota, host.rota_length, &table);
    if (written.refusal != 0) {
        show_refusal("", written.refusal);
        return 1;
    }
    host.table = table;
    host.table_length = written.length;
    printf("rota: format %" PRIu32 ", cycle %" PRIu32 ", %" PRIu32 " hours, %" PRIu32 " volunteers, %" PRIu32 " rights, %" PRIu32
           " roles, %" PRIu32 " + %" PRIu32 " rows\n",
           counts.format, counts.cycle, counts.hours, counts.volunteers, counts.rights, counts.roles, counts.volunteer_rows, counts.right_rows);
    printf("table: %" PRIu32 " derived roles, %" PRIu32 " rows, %" PRIu64 " bytes\n", written.derived, written.rows, written.length);
    show_tidy(&host);

    uint32_t monday = softlode_minute(2024, 2, 26, 0, 0).minute;
    for (uint32_t hour = 0; hour < 7 * 24; hour++) spend_hour(&host, counts, monday + HOUR * hour);
    show_users(&host, counts, monday + 2 * DAY + 11 * HOUR);
    show_board(&host, counts, monday + 2 * DAY + 11 * HOUR);
    for (uint32_t volunteer = 0; volunteer < counts.volunteers; volunteer++) show_page(&host, counts, volunteer, monday + 2 * DAY + 11 * HOUR);
    show_next(&host, counts, monday + 7 * DAY);
    show_refusals(&host, rota);
    printf("%u advances closed %u; %u opens, %u closes, %u yes, %u no, %u refused; at ", host.advances, host.closed, host.opens, host.closes,
           host.yes, host.no, host.refused);
    show_date(host.service.now);
    printf(" open %016" PRIx64 "\nthe rota and the table agree\n", host.service.open);
    if (fflush(stdout) != 0 || ferror(stdout)) fail(2, "cannot write", "");
    free(table);
    return 0;
}
