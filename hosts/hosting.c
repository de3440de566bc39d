/*
 * Tries each advice of docs/HOSTING.md. What a host is advised to write stands first, and the page shows these functions as they stand here; then
 * come the tests, one for each advice, which the page names.
 *
 *     hosting ROTA      with data/week.rota
 *
 * It prints a line for each test, some with times as they were found. Status: 0; 1, with a line on standard error, at the first fact that does not
 * hold; 2 where the rota cannot be read or the arguments are wrong.
 */
#define _POSIX_C_SOURCE 200809L
#include <inttypes.h>
#include <pthread.h>
#include <signal.h>
#include <stdio.h>
#include <stdlib.h>
#include <string.h>
#include <sys/resource.h>
#include <sys/wait.h>
#include <time.h>
#include <unistd.h>

#include "softlode.h"

enum { HOUR = 60, DAY = 24 * HOUR, WEEK = 7 * DAY, VOLUNTEERS = 64, REWRITING_STACK = 2 << 20 };

/* ---- What a host is advised to write ---- */

/* What a server keeps: the rota and its table, and one record. Calls on the record are made under the lock. */
struct archive {
    uint8_t rota[SOFTLODE_LARGEST_ROTA];
    size_t rota_length;
    uint8_t *table;
    size_t table_length;
    softlode_service service;
    pthread_mutex_t lock;
};

/* The minute of the archive's clock, which is UTC and so many minutes more, all the year; 50 before 2001 and after 2400. */
static softlode_minute_number minute_at(time_t seconds, int offset) {
    time_t shown = seconds + 60 * (time_t)offset;
    struct tm tm;
    if (gmtime_r(&shown, &tm) == NULL) return (softlode_minute_number){SOFTLODE_NO_SUCH_DATE, 0};
    return softlode_minute(tm.tm_year + 1900, tm.tm_mon + 1, tm.tm_mday, tm.tm_hour, tm.tm_min);
}

/* What to do with a minute that the clock shows: advance to it, wait until it has caught up with the record, or do nothing and call somebody. */
enum sight { ADVANCE, WAIT, CALL_SOMEBODY };
enum { STEP_BACK = 10, JUMP_AHEAD = 3 * DAY };

static enum sight judge_clock(const softlode_service *service, softlode_minute_number shown) {
    if (shown.refusal != 0) return CALL_SOMEBODY;
    if (service->now == 0) return ADVANCE; /* a fresh record, which has no minute yet */
    if (shown.minute < service->now) return service->now - shown.minute <= STEP_BACK ? WAIT : CALL_SOMEBODY;
    return shown.minute - service->now <= JUMP_AHEAD ? ADVANCE : CALL_SOMEBODY;
}

/* Reads a file of at most `limit` bytes to memory that has room for one more, which says that the file is longer. -1 where it cannot be read. */
static long load(const char *name, uint8_t *bytes, size_t limit) {
    FILE *file = fopen(name, "rb");
    if (file == NULL) return -1;
    size_t length = fread(bytes, 1, limit + 1, file);
    int failed = ferror(file);
    fclose(file);
    return failed ? -1 : (long)length;
}

/* Stores the record: its two fields, as text, in a new file that takes the place of the old one at once. 0, or -1 with the old file as it was. */
static int store(const char *name, softlode_service service) {
    char beside[4096];
    int written = snprintf(beside, sizeof beside, "%s.new", name);
    if (written < 0 || (size_t)written >= sizeof beside) return -1;
    FILE *file = fopen(beside, "w");
    if (file == NULL) return -1;
    int failed = fprintf(file, "%" PRIu32 " %016" PRIx64 "\n", service.now, service.open) < 0;
    failed |= fflush(file) != 0 || fsync(fileno(file)) != 0;
    failed |= fclose(file) != 0;
    return failed || rename(beside, name) != 0 ? -1 : 0;
}

/* The record that was stored. 0, or -1 where the file is not there or is no such text. Whether it fits the bytes says the next call, by 40. */
static int restore(const char *name, softlode_service *service) {
    softlode_service found = SOFTLODE_FRESH;
    char end;
    FILE *file = fopen(name, "r");
    if (file == NULL) return -1;
    int fields = fscanf(file, "%10" SCNu32 " %16" SCNx64 "%c", &found.now, &found.open, &end);
    fclose(file);
    if (fields != 3 || end != '\n') return -1;
    *service = found;
    return 0;
}

/* The open sessions by the new rota's numbers: who[v] is the number there of volunteer v, or 64 for one who is not in it any more. */
static uint64_t renumbered(uint64_t open, const uint8_t who[VOLUNTEERS]) {
    uint64_t by_new = 0;
    for (unsigned v = 0; v < VOLUNTEERS; v++)
        if ((open >> v & 1) && who[v] < VOLUNTEERS) by_new |= UINT64_C(1) << who[v];
    return by_new;
}

/* Takes a rota in at a minute, in place of the one that is there: it is judged and rewritten first, and where it is refused nothing changes. 0, or
 * the refusal; 20 where there is no memory. */
static uint32_t take_rota(struct archive *archive, const uint8_t *rota, size_t length, uint32_t minute, const uint8_t who[VOLUNTEERS]) {
    softlode_written size = softlode_rewrite_size(rota, length);
    if (size.refusal != 0) return size.refusal;
    uint8_t *table = malloc(size.length);
    if (table == NULL) return SOFTLODE_AREA_TOO_SMALL;
    softlode_rewrite(rota, length, table, size.length); /* as softlode_rewrite_size said, and so never 20 */

    pthread_mutex_lock(&archive->lock);
    softlode_rota_advance(&archive->service, archive->rota, archive->rota_length, minute); /* the minutes up to here are the old rota's */
    archive->service.open = renumbered(archive->service.open, who);
    memcpy(archive->rota, rota, length); /* no accepted rota is longer than SOFTLODE_LARGEST_ROTA */
    archive->rota_length = length;
    uint8_t *old = archive->table;
    archive->table = table;
    archive->table_length = size.length;
    pthread_mutex_unlock(&archive->lock);
    free(old);
    return 0;
}

/* Closes whoever holds no right at the record's minute by the bytes that are there now; tells how many. */
static unsigned close_idle(struct archive *archive) {
    unsigned closed = 0;
    softlode_board board = softlode_table_board(archive->table, archive->table_length, archive->service.now);
    for (uint32_t v = 0; v < VOLUNTEERS; v++)
        if ((archive->service.open >> v & 1) && board.rights[v] == 0)
            closed += softlode_rota_close(&archive->service, archive->rota, archive->rota_length, v).refusal == 0;
    return closed;
}

/* One ask of one of many threads: the record is brought to the minute, and asked, without anyone between. */
static softlode_told ask_at(struct archive *archive, uint32_t volunteer, uint32_t right, uint32_t minute) {
    pthread_mutex_lock(&archive->lock);
    softlode_told told = softlode_rota_advance(&archive->service, archive->rota, archive->rota_length, minute);
    if (told.refusal == 0 || told.refusal == SOFTLODE_BEFORE_NOW)
        told = softlode_rota_ask(&archive->service, archive->rota, archive->rota_length, volunteer, right);
    pthread_mutex_unlock(&archive->lock);
    return told;
}

/* Runs something on a thread that has stack enough for a rewriting. 0, or the number of the error. */
static int on_large_stack(void *(*run)(void *), void *with, size_t stack) {
    pthread_attr_t attributes;
    pthread_t thread;
    int error = pthread_attr_init(&attributes);
    if (error != 0) return error;
    error = pthread_attr_setstacksize(&attributes, stack);
    if (error == 0) error = pthread_create(&thread, &attributes, run, with);
    if (error == 0) error = pthread_join(thread, NULL);
    pthread_attr_destroy(&attributes);
    return error;
}

/* An advance on a table that came from elsewhere: a day at a time, so that the host can look up between, or give up. It ends as one call would. */
static softlode_told advance_by_days(softlode_service *service, const uint8_t *table, size_t length, uint32_t minute, int (*go_on)(void)) {
    softlode_told told = {0, 0, 0};
    uint32_t closed = 0;
    do {
        uint32_t day = minute > service->now && minute - service->now > DAY ? service->now + DAY : minute;
        told = softlode_table_advance(service, table, length, day);
        closed += told.value;
    } while (told.refusal == 0 && service->now != minute && go_on());
    told.value = closed;
    return told;
}

/* A line for the log: what was tried, the number and what it means. */
static int explain(char *line, size_t size, const char *what, uint32_t refusal) {
    return snprintf(line, size, "%s: refused %" PRIu32 ", %s", what, refusal, softlode_meaning(refusal));
}

/* ---- The tests ---- */

static struct archive archive = {.lock = PTHREAD_MUTEX_INITIALIZER};
static uint8_t week[SOFTLODE_LARGEST_ROTA + 1], fine[SOFTLODE_LARGEST_ROTA], full[SOFTLODE_LARGEST_ROTA];
static size_t week_length, fine_length, full_length;
static uint32_t monday; /* 26 February 2024, 00:00 */
static uint8_t same[VOLUNTEERS]; /* everyone keeps his number */

static void expect(int holds, const char *fact, const char *test, int line) {
    if (holds) return;
    fprintf(stderr, "hosting: %s, line %d: not so: %s\n", test, line, fact);
    exit(1);
}
#define EXPECT(fact) expect((fact), #fact, __func__, __LINE__)

/* The weekly rota, with a fresh record that is brought to a minute. */
static void start(uint32_t minute) {
    archive.service = (softlode_service)SOFTLODE_FRESH;
    EXPECT(take_rota(&archive, week, week_length, 0, same) == 0);
    EXPECT(softlode_rota_advance(&archive.service, archive.rota, archive.rota_length, minute).refusal == 0);
}

static softlode_told advance(uint32_t minute) {
    return softlode_rota_advance(&archive.service, archive.rota, archive.rota_length, minute);
}

static void open_session(uint32_t volunteer) {
    EXPECT(softlode_rota_open(&archive.service, archive.rota, archive.rota_length, volunteer).refusal == 0);
}

static softlode_told ask(uint32_t volunteer, uint32_t right) {
    return softlode_rota_ask(&archive.service, archive.rota, archive.rota_length, volunteer, right);
}

static int same_record(softlode_service a, softlode_service b) { return a.now == b.now && a.open == b.open; }

static int same_told(softlode_told a, softlode_told b) { return a.refusal == b.refusal && a.yes == b.yes && a.value == b.value; }

static double seconds(void) {
    struct timespec t;
    clock_gettime(CLOCK_MONOTONIC, &t);
    return (double)t.tv_sec + (double)t.tv_nsec * 1e-9;
}

/* The quickest of so many runs. */
static double quickest(void (*run)(void), int runs) {
    double least = 1e9;
    while (runs-- > 0) {
        double begin = seconds();
        run();
        double took = seconds() - begin;
        if (took < least) least = took;
    }
    return least;
}

static void put(uint8_t **at, unsigned bytes, uint32_t number) {
    for (; bytes > 0; bytes--, number >>= 8) *(*at)++ = (uint8_t)number;
}

/* A rota that cuts its weeks finely: `hours` records with `pairs` pairs each, of different dates and offsets; as many volunteers as rights; roles
 * that are always enabled; `a` volunteer rows and `b` right rows. */
static size_t make_rota(uint8_t *rota, unsigned hours, unsigned pairs, unsigned numbers, unsigned roles, unsigned a, unsigned b) {
    uint8_t *at = rota;
    put(&at, 2, 1), put(&at, 2, WEEK), put(&at, 1, hours), put(&at, 1, numbers), put(&at, 1, numbers), put(&at, 1, roles);
    put(&at, 2, a), put(&at, 2, b);
    for (unsigned h = 0; h < hours; h++) {
        put(&at, 4, 3000000 * h), put(&at, 4, 100000000 + 3000001 * h), put(&at, 2, pairs);
        for (unsigned j = 0; j < pairs; j++) put(&at, 2, (WEEK / pairs) * j + 17 * h), put(&at, 2, 300 + 7 * h);
    }
    for (unsigned r = 0; r < roles; r++) put(&at, 1, 255);
    for (unsigned k = 0; k < a; k++) put(&at, 1, k / roles % numbers), put(&at, 1, k % roles), put(&at, 1, (k / roles + 5 * k) % hours);
    for (unsigned k = 0; k < b; k++) put(&at, 1, k * 5 % numbers), put(&at, 1, k % roles), put(&at, 1, 255);
    return (size_t)(at - rota);
}

/* Where the weekly rota's roles begin, behind which its rows stand to the end. */
static size_t roles_at(void) {
    softlode_rota counts = softlode_rota_read(week, week_length);
    return week_length - counts.roles - 3 * (counts.volunteer_rows + counts.right_rows);
}

/* A table as no rewriting makes it: 31 roles hand volunteer 0 on at each minute of the week but the first, for which the last role has a row that
 * ends with each week, so that no week can be passed over. */
static uint8_t *make_table(size_t *length, uint32_t weeks) {
    enum { ROLES = 32 };
    uint32_t rows = WEEK - 1 + weeks;
    *length = 16 + 17 * ROLES + 16 * (size_t)rows;
    uint8_t *table = malloc(*length), *at = table;
    EXPECT(table != NULL);
    put(&at, 2, 2), put(&at, 2, WEEK), put(&at, 1, 1), put(&at, 1, 1), put(&at, 2, ROLES), put(&at, 4, ROLES), put(&at, 4, rows);
    for (uint32_t r = 0; r < ROLES; r++) put(&at, 1, r), put(&at, 4, 1), put(&at, 4, 0), put(&at, 4, 1), put(&at, 4, 0);
    for (uint32_t r = 0; r < ROLES - 1; r++)
        for (uint32_t t = r + 1; t < WEEK; t += ROLES - 1)
            put(&at, 4, r), put(&at, 4, 0), put(&at, 4, SOFTLODE_LAST_MINUTE + 1), put(&at, 2, t), put(&at, 2, 1);
    for (uint32_t w = 0; w < weeks; w++) put(&at, 4, ROLES - 1), put(&at, 4, w * WEEK), put(&at, 4, (w + 1) * WEEK), put(&at, 2, 0), put(&at, 2, 1);
    return table;
}

static void versions(void) {
    EXPECT(softlode_fits());
    EXPECT(softlode_version() >= SOFTLODE_VERSION);
}

static const time_t year_2024 = 1704067200; /* 1 January 2024, 00:00 UTC */

/* What a clock with the summer time of Central Europe shows. */
static struct tm on_the_wall(time_t seconds) {
    struct tm tm;
    EXPECT(setenv("TZ", "CET-1CEST,M3.5.0,M10.5.0/3", 1) == 0);
    tzset();
    EXPECT(localtime_r(&seconds, &tm) != NULL);
    return tm;
}

/* Each half hour of 2024: by UTC and an offset half an hour passes each time; with summer time an hour is missing and another comes twice. */
static void clock_without_summer_time(void) {
    unsigned missing = 0, back = 0;
    uint32_t first = minute_at(year_2024, HOUR).minute, local = 0;
    EXPECT(first == softlode_minute(2024, 1, 1, 1, 0).minute);
    start(first - HOUR);
    for (uint32_t k = 0; k < 366 * 48; k++) {
        time_t seconds = year_2024 + 1800 * (time_t)k;
        struct tm tm = on_the_wall(seconds);
        EXPECT(minute_at(seconds, HOUR).minute == first + 30 * k);
        uint32_t shown = softlode_minute(tm.tm_year + 1900, tm.tm_mon + 1, tm.tm_mday, tm.tm_hour, tm.tm_min).minute;
        if (k > 0 && shown == local + 90) missing++;
        uint32_t refusal = advance(shown).refusal;
        EXPECT(refusal == 0 || refusal == SOFTLODE_BEFORE_NOW);
        if (refusal != 0) back++;
        local = shown;
    }
    EXPECT(missing == 1 && back == 1);
    EXPECT(minute_at(0, 0).refusal == SOFTLODE_NO_SUCH_DATE);
    EXPECT(minute_at((time_t)1 << 40, 0).refusal == SOFTLODE_NO_SUCH_DATE);
    EXPECT(minute_at((time_t)1 << 62, 0).refusal == SOFTLODE_NO_SUCH_DATE);
}

/* Open from 9 to 18 by the clock on the wall, by three hours records: standard time to the end of March, an hour earlier in summer, and after it. */
static void summer_has_its_own_hours(void) {
    uint8_t rota[SOFTLODE_LARGEST_ROTA], *at = rota;
    uint32_t spring = softlode_minute(2024, 3, 31, 2, 0).minute, autumn = softlode_minute(2024, 10, 27, 2, 0).minute;
    const uint32_t records[3][3] = {{0, spring, 9 * HOUR}, {spring, autumn, 8 * HOUR}, {autumn, SOFTLODE_LAST_MINUTE + 1, 9 * HOUR}};
    put(&at, 2, 1), put(&at, 2, DAY), put(&at, 1, 3), put(&at, 1, 1), put(&at, 1, 1), put(&at, 1, 1), put(&at, 2, 3), put(&at, 2, 1);
    for (int h = 0; h < 3; h++)
        put(&at, 4, records[h][0]), put(&at, 4, records[h][1]), put(&at, 2, 1), put(&at, 2, records[h][2]), put(&at, 2, 9 * HOUR);
    put(&at, 1, 255);
    for (uint32_t h = 0; h < 3; h++) put(&at, 1, 0), put(&at, 1, 0), put(&at, 1, h);
    put(&at, 1, 0), put(&at, 1, 0), put(&at, 1, 255);
    for (uint32_t k = 0; k < 366 * 48; k++) {
        time_t seconds = year_2024 + 1800 * (time_t)k;
        softlode_told told = softlode_rota_question(rota, (size_t)(at - rota), 0, 0, minute_at(seconds, HOUR).minute);
        int hour = on_the_wall(seconds).tm_hour;
        EXPECT(told.refusal == 0 && told.yes == (hour >= 9 && hour < 18));
    }
}

/* The clock steps back by seven minutes: 41 until it has caught up, the record stays, and asks are answered at its minute. */
static void clock_steps_back(void) {
    uint32_t now = monday + 9 * HOUR;
    start(now);
    open_session(0);
    softlode_service before = archive.service;
    for (uint32_t shown = now - 7; shown < now; shown++) {
        EXPECT(judge_clock(&archive.service, (softlode_minute_number){0, shown}) == WAIT);
        EXPECT(advance(shown).refusal == SOFTLODE_BEFORE_NOW);
        EXPECT(same_record(archive.service, before));
        EXPECT(ask(0, 4).yes == 1);
    }
    EXPECT(judge_clock(&archive.service, (softlode_minute_number){0, now}) == ADVANCE);
    EXPECT(advance(now).refusal == 0 && same_record(archive.service, before));
    EXPECT(advance(now + 1).refusal == 0 && archive.service.now == now + 1 && archive.service.open == before.open);
    EXPECT(judge_clock(&archive.service, (softlode_minute_number){0, now - HOUR}) == CALL_SOMEBODY);
}

/* A minute that is far too late closes everyone, and cannot be taken back but by the record from before. */
static void clock_jumps_ahead(void) {
    uint32_t now = monday + 9 * HOUR, wrong = softlode_minute(2038, 1, 19, 3, 14).minute;
    softlode_service fresh = SOFTLODE_FRESH;
    start(now);
    open_session(0);
    softlode_service before = archive.service;
    EXPECT(judge_clock(&archive.service, (softlode_minute_number){0, wrong}) == CALL_SOMEBODY);
    EXPECT(judge_clock(&archive.service, (softlode_minute_number){SOFTLODE_NO_SUCH_DATE, 0}) == CALL_SOMEBODY);
    EXPECT(judge_clock(&fresh, (softlode_minute_number){0, now}) == ADVANCE);
    EXPECT(judge_clock(&fresh, (softlode_minute_number){SOFTLODE_NO_SUCH_DATE, 0}) == CALL_SOMEBODY);
    EXPECT(advance(wrong).value == 1 && archive.service.open == 0);
    EXPECT(advance(now + 1).refusal == SOFTLODE_BEFORE_NOW);
    archive.service = before;
    EXPECT(advance(now + 1).refusal == 0 && ask(0, 4).yes == 1);
}

/* An ask is answered at the record's minute, whatever the clock shows: advance first. */
static void asks_are_as_old_as_the_record(void) {
    uint32_t now = monday + 17 * HOUR + 59; /* opening hours end at 18:00 */
    start(now);
    open_session(3);
    EXPECT(ask(3, 4).yes == 1);
    EXPECT(ask_at(&archive, 3, 4, now).yes == 1);
    EXPECT(ask_at(&archive, 3, 4, now + 1).refusal == SOFTLODE_NOT_OPEN);
    EXPECT(ask_at(&archive, 3, 4, now).refusal == SOFTLODE_NOT_OPEN && archive.service.now == now + 1);
}

/* A week by single minutes, and in one step: the same record, and as many closed. */
static void once_or_often(void) {
    uint32_t closed = 0;
    for (int hour = 0; hour < 24; hour++) {
        start(monday + (uint32_t)hour * HOUR);
        for (uint32_t v = 0; v < VOLUNTEERS; v++) softlode_rota_open(&archive.service, archive.rota, archive.rota_length, v);
        softlode_service jump = archive.service;
        uint32_t one_by_one = 0, to = archive.service.now + WEEK;
        for (uint32_t minute = archive.service.now + 1; minute <= to; minute++) one_by_one += advance(minute).value;
        EXPECT(softlode_table_advance(&jump, archive.table, archive.table_length, to).value == one_by_one);
        EXPECT(same_record(jump, archive.service));
        closed += one_by_one;
    }
    EXPECT(closed > 50);
}

/* What is stored comes back; what is not such a text does not; and what does not fit the rota is 40. */
static void record_is_stored(void) {
    char name[] = "/tmp/softlode-hosting-XXXXXX";
    int made = mkstemp(name);
    EXPECT(made >= 0 && close(made) == 0);
    softlode_service service = {1, 1};
    EXPECT(restore(name, &service) == -1 && service.now == 1 && service.open == 1);

    start(monday + 9 * HOUR);
    open_session(0);
    open_session(2);
    EXPECT(store(name, archive.service) == 0);
    EXPECT(restore(name, &service) == 0 && same_record(service, archive.service));
    softlode_service largest = {UINT32_MAX, UINT64_MAX};
    EXPECT(store(name, largest) == 0 && restore(name, &service) == 0 && same_record(service, largest));
    EXPECT(softlode_rota_advance(&service, archive.rota, archive.rota_length, monday).refusal == SOFTLODE_RECORD_UNFIT);

    const char *const damaged[] = {"", "\n", "12", "12 \n", "12 00000000000000", "12 0000000000000010x", "12 00000000000000100\n", "x 1\n"};
    for (size_t k = 0; k < sizeof damaged / sizeof *damaged; k++) {
        FILE *file = fopen(name, "w");
        EXPECT(file != NULL && fputs(damaged[k], file) >= 0 && fclose(file) == 0);
        EXPECT(restore(name, &service) == -1);
    }
    EXPECT(unlink(name) == 0 && restore(name, &service) == -1);
    EXPECT(store("/tmp/no/such/folder", service) == -1);
}

/* A server that was down over the end of a session closes it once it is back, though it had been asked to go on. */
static void restored_record_catches_up(void) {
    start(monday + 12 * HOUR);
    open_session(2); /* in the mornings, to 13:00 */
    open_session(0); /* in opening hours, to 18:00 */
    softlode_service stored = archive.service;
    start(0);
    archive.service = stored;
    EXPECT(advance(monday + 14 * HOUR).value == 1 && archive.service.open == 1);
    archive.service = stored;
    EXPECT(advance(monday + DAY + 12 * HOUR).value == 2 && archive.service.open == 0);
}

/* An advance need not be stored, since it is made again; a close has to be, or the session is back. */
static void closes_are_stored(void) {
    start(monday + 12 * HOUR);
    open_session(0);
    open_session(2);
    softlode_service stored = archive.service;
    advance(monday + 13 * HOUR);
    EXPECT(softlode_rota_close(&archive.service, archive.rota, archive.rota_length, 0).refusal == 0 && archive.service.open == 0);
    archive.service = stored;
    EXPECT(advance(monday + 14 * HOUR).value == 1 && archive.service.open == 1);
}

/* A rota that is refused changes nothing. */
static void refused_rota_keeps_the_old_one(void) {
    start(monday + 9 * HOUR);
    open_session(0);
    softlode_service before = archive.service;
    const uint8_t *table = archive.table;
    EXPECT(take_rota(&archive, week, week_length - 1, monday + 10 * HOUR, same) == SOFTLODE_ROTA_LENGTH);
    EXPECT(same_record(archive.service, before) && archive.table == table && archive.rota_length == week_length);
    EXPECT(ask(0, 4).yes == 1);
}

/* A rota with fewer volunteers: 40 from then on, to a close as well; so sessions are closed by the old bytes, or left out. */
static void fewer_volunteers(void) {
    uint8_t fewer[SOFTLODE_LARGEST_ROTA];
    size_t length = make_rota(fewer, 2, 2, 3, 1, 6, 6);
    start(monday + 9 * HOUR);
    open_session(0);
    open_session(17);
    EXPECT(take_rota(&archive, fewer, length, archive.service.now, same) == 0);
    EXPECT(ask(0, 0).refusal == SOFTLODE_RECORD_UNFIT);
    EXPECT(advance(archive.service.now + 1).refusal == SOFTLODE_RECORD_UNFIT);
    EXPECT(softlode_rota_close(&archive.service, archive.rota, archive.rota_length, 17).refusal == SOFTLODE_RECORD_UNFIT);

    uint32_t volunteers = softlode_rota_read(archive.rota, archive.rota_length).volunteers;
    archive.service.open &= volunteers == 64 ? UINT64_MAX : (UINT64_C(1) << volunteers) - 1;
    EXPECT(archive.service.open == 1 && ask(0, 0).refusal == 0);
}

/* The minutes before a new rota are judged by the old one: who was to go by then goes, though the new one would have let him stay. */
static void old_minutes_by_the_old_rota(void) {
    uint8_t always[SOFTLODE_LARGEST_ROTA];
    uint32_t roles = softlode_rota_read(week, week_length).roles;
    memcpy(always, week, week_length);
    memset(always + roles_at(), 255, roles);
    for (size_t row = roles_at() + roles; row < week_length; row += 3) always[row + 2] = 255;

    start(monday + 12 * HOUR);
    open_session(2); /* in the mornings, to 13:00 */
    softlode_service late = archive.service;
    EXPECT(take_rota(&archive, always, week_length, monday + 14 * HOUR, same) == 0 && archive.service.open == 0);
    EXPECT(softlode_rota_advance(&late, always, week_length, monday + 14 * HOUR).value == 0 && late.open == 4);
}

/* Volunteers who have other numbers in the new rota: their sessions go with them, and one who is gone has none. */
static void renumbered_volunteers(void) {
    uint8_t who[VOLUNTEERS];
    memset(who, VOLUNTEERS, sizeof who);
    who[0] = 2, who[3] = 0, who[4] = 63;
    EXPECT(renumbered(UINT64_C(1) << 0 | UINT64_C(1) << 3 | UINT64_C(1) << 17, who) == 5);
    EXPECT(renumbered(UINT64_MAX, who) == (UINT64_C(1) << 63 | 5));

    start(monday + 9 * HOUR);
    open_session(0);
    open_session(17);
    EXPECT(take_rota(&archive, week, week_length, archive.service.now, who) == 0);
    EXPECT(archive.service.open == 4 && ask(0, 4).refusal == SOFTLODE_NOT_OPEN && ask(2, 4).refusal == 0);
}

/* Under a new rota that gives somebody nothing his session stays open until the next minute, though every ask is a no; it can be closed at once. */
static void new_rota_closes_at_the_next_minute(void) {
    uint8_t bare[SOFTLODE_LARGEST_ROTA]; /* without roles and rows */
    memcpy(bare, week, week_length);
    bare[7] = bare[8] = bare[9] = bare[10] = bare[11] = 0;
    size_t length = roles_at();
    for (int at_once = 0; at_once < 2; at_once++) {
        start(monday + 9 * HOUR);
        open_session(0);
        EXPECT(take_rota(&archive, bare, length, archive.service.now, same) == 0);
        EXPECT(advance(archive.service.now).value == 0 && archive.service.open == 1);
        EXPECT(ask(0, 4).refusal == 0 && ask(0, 4).yes == 0);
        if (at_once)
            EXPECT(close_idle(&archive) == 1);
        else
            EXPECT(advance(archive.service.now + 1).value == 1);
        EXPECT(archive.service.open == 0);
    }
    start(monday + 9 * HOUR);
    open_session(0);
    EXPECT(close_idle(&archive) == 0 && archive.service.open == 1);
}

static volatile uint32_t sum; /* so that what is timed is not left out */

static void ask_rota(void) {
    for (uint32_t k = 0; k < 256; k++) sum += softlode_rota_question(archive.rota, archive.rota_length, k % 8, k % 7, monday + k).yes;
}

static void ask_table(void) { sum += softlode_table_question(archive.table, archive.table_length, 3, 3, monday).yes; }

static void page_table(void) {
    softlode_question page[SOFTLODE_MOST_QUESTIONS] = {{0, 0, 0, {0, 0, 0}}};
    for (uint32_t k = 0; k < 256; k++) page[k] = (softlode_question){.volunteer = k % 8, .right = k % 7, .minute = monday + k};
    EXPECT(softlode_table_page(page, SOFTLODE_MOST_QUESTIONS, archive.table, archive.table_length) == 0);
    for (uint32_t k = 0; k < 256; k++) sum += page[k].answer.yes;
}

static void board_of_table(void) { sum += softlode_table_board(archive.table, archive.table_length, monday).rows; }

/* A question reads all of the bytes that it is put to: a rota is short, and its table may be long. A page and a board read the table once. */
static void rota_for_questions(void) {
    start(0);
    EXPECT(take_rota(&archive, fine, fine_length, 0, same) == 0);
    double by_rota = quickest(ask_rota, 20) / 256, by_table = quickest(ask_table, 20);
    double by_page = quickest(page_table, 20), by_board = quickest(board_of_table, 20);
    for (uint32_t k = 0; k < 256; k++)
        EXPECT(same_told(softlode_rota_question(fine, fine_length, k % 8, k % 7, monday + k),
                         softlode_table_question(archive.table, archive.table_length, k % 8, k % 7, monday + k)));
    printf("  rota of %zu bytes, table of %zu: a question %.0f ns by the rota, %.0f us by the table; 256 on a page %.0f us, a board %.0f us\n",
           fine_length, archive.table_length, by_rota * 1e9, by_table * 1e6, by_page * 1e6, by_board * 1e6);
    EXPECT(by_table > 20 * by_rota);
    EXPECT(by_page < 20 * by_table && by_board < 20 * by_table);
}

/* The table's own length is enough for it, and is what is lent afterwards: one byte less is 20, and a longer piece is 25. */
static void area_as_long_as_the_table(void) {
    start(0);
    static uint8_t area[65536];
    softlode_written size = softlode_rewrite_size(week, week_length);
    EXPECT(size.refusal == 0 && size.length == archive.table_length && size.length < sizeof area);
    EXPECT(softlode_rewrite(week, week_length, area, size.length - 1).refusal == SOFTLODE_AREA_TOO_SMALL);
    softlode_written written = softlode_rewrite(week, week_length, area, size.length);
    EXPECT(written.refusal == 0 && written.length == size.length && written.rows == size.rows && written.derived == size.derived);
    EXPECT(softlode_table_read(area, written.length).refusal == 0);
    EXPECT(softlode_table_read(area, sizeof area).refusal == SOFTLODE_TABLE_LENGTH);
    EXPECT(softlode_rewrite_size(week, week_length - 1).refusal == SOFTLODE_ROTA_LENGTH);
}

/* A rota to be taken in on another thread, and what it is refused with. */
struct taking {
    const uint8_t *rota;
    size_t length;
    uint32_t refusal;
};

static void *take(void *with) {
    struct taking *taking = with;
    taking->refusal = take_rota(&archive, taking->rota, taking->length, 0, same);
    return NULL;
}

/* A rewriting on a thread of 2 MiB ends well, whatever the rota; on one of 256 KiB eight hours records are enough to end the process, though the
 * weekly rota passes. */
static void rewriting_needs_stack(void) {
    uint8_t eight[SOFTLODE_LARGEST_ROTA];
    struct taking largest = {full, full_length, 1}, weekly = {week, week_length, 1};
    struct taking ending = {eight, make_rota(eight, 8, 1, 4, 1, 4, 4), 1};
    start(0);
    EXPECT(on_large_stack(take, &largest, REWRITING_STACK) == 0 && largest.refusal == 0);
    EXPECT(on_large_stack(take, &ending, REWRITING_STACK) == 0 && ending.refusal == 0);
    EXPECT(on_large_stack(take, &weekly, 256 << 10) == 0 && weekly.refusal == 0);
    fflush(stdout);
    pid_t child = fork();
    EXPECT(child >= 0);
    if (child == 0) {
        signal(SIGSEGV, SIG_DFL);
        setrlimit(RLIMIT_CORE, &(struct rlimit){0, 0});
        on_large_stack(take, &ending, 256 << 10);
        _exit(0);
    }
    int status = 0;
    EXPECT(waitpid(child, &status, 0) == child);
    EXPECT(WIFSIGNALED(status) && WTERMSIG(status) == SIGSEGV);
}

/* A week of a volunteer who comes whenever he may: how often he came, and was sent home. */
static uint32_t spend_week(softlode_service *service) {
    uint32_t closed = 0;
    for (uint32_t minute = monday; minute < monday + WEEK; minute += 30) {
        closed += softlode_table_advance(service, archive.table, archive.table_length, minute).value;
        for (uint32_t v = 0; v < VOLUNTEERS; v++) softlode_table_open(service, archive.table, archive.table_length, v);
    }
    return closed;
}

static void *spend_weeks(void *with) {
    for (int k = 0; k < 3; k++) {
        softlode_service service = SOFTLODE_FRESH;
        *(uint32_t *)with = spend_week(&service);
    }
    return NULL;
}

/* Four threads on the same bytes, each with a record of its own. */
static void records_of_their_own(void) {
    pthread_t threads[4];
    uint32_t closed[4] = {0, 0, 0, 0};
    start(0);
    softlode_service alone = SOFTLODE_FRESH;
    uint32_t expected = spend_week(&alone);
    EXPECT(expected > 50);
    for (int k = 0; k < 4; k++) EXPECT(pthread_create(&threads[k], NULL, spend_weeks, &closed[k]) == 0);
    for (int k = 0; k < 4; k++) EXPECT(pthread_join(threads[k], NULL) == 0 && closed[k] == expected);
}

/* A volunteer comes, asks and leaves, again and again through the morning, as three calls with others between. */
static void *come_and_go(void *with) {
    uint32_t *volunteer = with;
    for (uint32_t k = 0; k < 20000; k++) {
        pthread_mutex_lock(&archive.lock);
        open_session(*volunteer);
        pthread_mutex_unlock(&archive.lock);
        EXPECT(ask_at(&archive, *volunteer, 0, monday + 9 * HOUR + k / 100).yes == 1);
        pthread_mutex_lock(&archive.lock);
        EXPECT(softlode_rota_close(&archive.service, archive.rota, archive.rota_length, *volunteer).refusal == 0);
        pthread_mutex_unlock(&archive.lock);
    }
    return NULL;
}

/* Four threads on one record, under its lock: nobody's call is lost. A thread that is behind the others asks at the record's minute. */
static void one_record_under_a_lock(void) {
    pthread_t threads[4];
    uint32_t volunteers[4] = {0, 2, 5, 17};
    start(monday + 9 * HOUR);
    for (int k = 0; k < 4; k++) EXPECT(pthread_create(&threads[k], NULL, come_and_go, &volunteers[k]) == 0);
    for (int k = 0; k < 4; k++) EXPECT(pthread_join(threads[k], NULL) == 0);
    EXPECT(archive.service.now == monday + 9 * HOUR + 199 && archive.service.open == 0);
}

/* A file that is longer than any rota need not be read: it would be refused. One byte more than the longest says so. */
static void long_files_are_refused(void) {
    static uint8_t longer[SOFTLODE_LARGEST_ROTA + 1];
    EXPECT(full_length == SOFTLODE_LARGEST_ROTA && softlode_rota_read(full, full_length).refusal == 0);
    memcpy(longer, full, full_length);
    EXPECT(softlode_rota_read(longer, sizeof longer).refusal == SOFTLODE_ROTA_LENGTH);
    memcpy(longer, week, week_length);
    EXPECT(softlode_rota_read(longer, sizeof longer).refusal == SOFTLODE_ROTA_LENGTH);
    EXPECT(load("/dev/zero", longer, SOFTLODE_LARGEST_ROTA) == SOFTLODE_LARGEST_ROTA + 1);
    EXPECT(load("/tmp/no/such/file", longer, SOFTLODE_LARGEST_ROTA) == -1);
    EXPECT(load("/tmp", longer, SOFTLODE_LARGEST_ROTA) == -1);
}

static void rewrite_again(void) { EXPECT(take_rota(&archive, full, full_length, 0, same) == 0); }

static void read_table(void) { sum += softlode_table_read(archive.table, archive.table_length).rows; }

static void advance_400_years(void) {
    softlode_service service = {0, UINT64_MAX};
    sum += softlode_table_advance(&service, archive.table, archive.table_length, SOFTLODE_LAST_MINUTE).value;
}

/* A rota with everything at its limit, 4,460 bytes: what its calls take, and that none of them takes long. */
static void costs_of_a_full_rota(void) {
    start(0);
    double rewriting = quickest(rewrite_again, 3), reading = quickest(read_table, 5), page = quickest(page_table, 5);
    double advance = quickest(advance_400_years, 3), rota = quickest(ask_rota, 20) / 256;
    printf("  a full rota, table of %zu bytes: size and rewriting %.1f ms, reading %.2f ms, a page %.2f ms, 400 years %.2f ms; a question %.0f ns\n",
           archive.table_length, rewriting * 1e3, reading * 1e3, page * 1e3, advance * 1e3, rota * 1e9);
    EXPECT(rewriting < 1 && reading < 0.2 && page < 0.2 && advance < 1 && rota < 1e-4);
}

static int days_left;
static int go_on(void) { return days_left-- > 0; }

/* A table that no rewriting made can take a step for each minute that is passed; by days it ends the same, and can be left between. */
static void tables_from_elsewhere(void) {
    size_t length;
    uint8_t *table = make_table(&length, 60);
    EXPECT(softlode_table_read(table, length).refusal == 0);
    softlode_service once = {0, 1}, by_days = {0, 1}, left = {0, 1};
    double begin = seconds();
    softlode_told told = softlode_table_advance(&once, table, length, 52 * WEEK);
    double took = seconds() - begin;
    EXPECT(told.refusal == 0 && told.value == 0 && once.open == 1);
    days_left = 1000; /* more than there are */
    EXPECT(same_told(advance_by_days(&by_days, table, length, 52 * WEEK, go_on), told) && same_record(by_days, once));
    days_left = 9;
    EXPECT(advance_by_days(&left, table, length, 52 * WEEK, go_on).refusal == 0 && left.now == 10 * DAY && left.open == 1);
    EXPECT(advance_by_days(&left, table, length, DAY, go_on).refusal == SOFTLODE_BEFORE_NOW && left.now == 10 * DAY);
    EXPECT(advance_by_days(&left, table, length, 10 * DAY, go_on).refusal == 0 && left.now == 10 * DAY);
    days_left = 1000;
    start(monday + 9 * HOUR);
    for (uint32_t v = 0; v < VOLUNTEERS; v++) softlode_rota_open(&archive.service, archive.rota, archive.rota_length, v);
    once = by_days = archive.service;
    told = softlode_table_advance(&once, archive.table, archive.table_length, once.now + 30 * DAY);
    EXPECT(same_told(advance_by_days(&by_days, archive.table, archive.table_length, once.now, go_on), told) && told.value > 5);
    printf("  a table of %zu bytes that no rewriting made: 52 weeks in %.0f ms, %.0f ns for each minute\n", length, took * 1e3,
           took * 1e9 / (52 * WEEK));
    EXPECT(took > 52 * WEEK * 1e-9);
    free(table);
}

static _Atomic int asked, wrong;

static void ask_in_handler(int number) {
    (void)number;
    softlode_service own = {monday + 9 * HOUR, 1};
    if (softlode_rota_ask(&own, week, week_length, 0, 4).yes != 1) wrong = 1;
    asked++;
}

static void *interrupt(void *with) {
    while (asked < 90) {
        struct timespec pause = {0, 200000};
        pthread_kill(*(pthread_t *)with, SIGUSR1);
        nanosleep(&pause, NULL);
    }
    return NULL;
}

/* A signal handler may call the library while a call is under way, with a record of its own: nothing is shared. */
static void in_a_signal_handler(void) {
    struct sigaction action;
    memset(&action, 0, sizeof action);
    action.sa_handler = ask_in_handler;
    EXPECT(sigaction(SIGUSR1, &action, NULL) == 0);
    static uint8_t area[65536], again[65536];
    pthread_t self = pthread_self(), thread;
    size_t length = (size_t)softlode_rewrite(week, week_length, area, sizeof area).length;
    EXPECT(pthread_create(&thread, NULL, interrupt, &self) == 0);
    while (asked < 90) {
        EXPECT(softlode_rewrite(week, week_length, again, sizeof again).length == length);
        EXPECT(memcmp(area, again, length) == 0);
    }
    EXPECT(pthread_join(thread, NULL) == 0 && wrong == 0);
    signal(SIGUSR1, SIG_DFL);
}

/* After a fork there are two records: what the child does with its own the parent does not see. */
static void fork_copies_the_record(void) {
    start(monday + 9 * HOUR);
    open_session(0);
    fflush(stdout);
    pid_t child = fork();
    EXPECT(child >= 0);
    if (child == 0) _exit(advance(monday + DAY).value == 1 && archive.service.open == 0 ? 0 : 1);
    int status = 1;
    EXPECT(waitpid(child, &status, 0) == child && WIFEXITED(status) && WEXITSTATUS(status) == 0);
    EXPECT(archive.service.open == 1 && ask(0, 4).yes == 1);
}

static void refusals_are_logged(void) {
    char line[200];
    uint32_t refusal = softlode_rota_read(week, week_length - 1).refusal;
    EXPECT(explain(line, sizeof line, "week.rota", refusal) > 0);
    EXPECT(strcmp(line, "week.rota: refused 9, the rota is longer or shorter than its counts say") == 0);
    EXPECT(explain(line, sizeof line, "x", 99) > 0 && strcmp(line, "x: refused 99, a number that this version does not know") == 0);
}

#define TEST(name) {#name, name}
static const struct {
    const char *name;
    void (*run)(void);
} tests[] = {
    TEST(versions),
    TEST(clock_without_summer_time),
    TEST(summer_has_its_own_hours),
    TEST(clock_steps_back),
    TEST(clock_jumps_ahead),
    TEST(asks_are_as_old_as_the_record),
    TEST(once_or_often),
    TEST(record_is_stored),
    TEST(restored_record_catches_up),
    TEST(closes_are_stored),
    TEST(refused_rota_keeps_the_old_one),
    TEST(fewer_volunteers),
    TEST(old_minutes_by_the_old_rota),
    TEST(renumbered_volunteers),
    TEST(new_rota_closes_at_the_next_minute),
    TEST(rota_for_questions),
    TEST(area_as_long_as_the_table),
    TEST(rewriting_needs_stack),
    TEST(records_of_their_own),
    TEST(one_record_under_a_lock),
    TEST(long_files_are_refused),
    TEST(costs_of_a_full_rota),
    TEST(tables_from_elsewhere),
    TEST(in_a_signal_handler),
    TEST(fork_copies_the_record),
    TEST(refusals_are_logged),
};

int main(int argc, char **argv) {
    long length = argc == 2 ? load(argv[1], week, SOFTLODE_LARGEST_ROTA) : -1;
    if (length < 0) {
        fprintf(stderr, "usage: hosting ROTA, a file that can be read\n");
        return 2;
    }
    week_length = (size_t)length;
    monday = softlode_minute(2024, 2, 26, 0, 0).minute;
    for (uint8_t v = 0; v < VOLUNTEERS; v++) same[v] = v;
    fine_length = make_rota(fine, 32, 4, 32, 4, 104, 4);
    full_length = make_rota(full, 32, 8, 64, 32, 512, 512);
    for (size_t k = 0; k < sizeof tests / sizeof *tests; k++) {
        tests[k].run();
        printf("hosting: %s\n", tests[k].name);
    }
    free(archive.table);
    return fflush(stdout) != 0 || ferror(stdout) ? 2 : 0;
}
