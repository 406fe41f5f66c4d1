/* A small study: a short sale order slides over a day with a falling and rising national bid while the restriction is on.
   It shows how a host plays a run of event records by venue_play, takes each event's bytes out by the ends, and goes on where a call stopped.
   It prints, from these bytes alone, what becomes of order 1, and before the day ends the resting orders as copy out gives them, a market short
   among them.
   examples/study.py is the same in Python.
   Build and run, from the repository's root:
   tools/libhost && cc -Wall -Wextra -Iinclude examples/study.c out/libhost.a -o out/study && out/study */
#include <inttypes.h>
#include <stdio.h>
#include <stdlib.h>
#include <string.h>
#include <venue.h>

enum { ENTRY = 1, CANCEL = 2, BID = 3, DAY_END = 5, OWNED_ENTRY = 6, TIMED_TAPE = 7 };

/* An event: what the table calls it, and the numbers of its record, the kind and its fields. */
struct event {
    const char *what;
    int count;
    uint32_t numbers[9];
};

static const struct event day[] = {
    {"bid 95000", 2, {BID, 95000}},
    /* time in seconds, price: the second is 10% below the first, and below the close */
    {"tape 100000, second 0", 3, {TIMED_TAPE, 0, 100000}},
    {"tape 90000, second 300", 3, {TIMED_TAPE, 300, 90000}},
    {"bid 91000", 2, {BID, 91000}},
    /* id, mark 2 (short), limit, shares, displayed, day, slide 0 (continuous) */
    {"1 sells 500 short, 90500", 8, {ENTRY, 1, 2, 90500, 500, 1, 0, 0}},
    {"bid 90700", 2, {BID, 90700}},
    {"bid 90900", 2, {BID, 90900}},
    {"bid 90300", 2, {BID, 90300}},
    {"2 buys 200, 90600", 8, {ENTRY, 2, 0, 90600, 200, 1, 0, 0}},
    {"bid 90000", 2, {BID, 90000}},
    {"cancel 2", 2, {CANCEL, 2}},
    /* a price of 0 means market: this one follows the bid; it is of firm 9 */
    {"3 sells 100 short", 9, {OWNED_ENTRY, 3, 2, 0, 100, 1, 0, 0, 9}},
    {"day end, close 90000", 2, {DAY_END, 90000}},
};

/* A record has up to 9 numbers of up to 5 bytes. The lengths of reports and ends are those that the header advises. */
enum { EVENTS = sizeof day / sizeof day[0], RECORD_BYTES = 45, REPORT_BYTES = 1048576, ENDS = 65536 };

static uint32_t words[VENUE_WORDS];
static uint8_t records[EVENTS * RECORD_BYTES];
static uint8_t reports[REPORT_BYTES];
static uint64_t ends[ENDS];

/* How far the day is played: the offset of the next record, and the events before it. */
static uint64_t offset, played;

/* The national bid, and what the reports say of order 1: its present price and the shares left. */
static uint32_t bid, price, left;

/* Writes a number in the seven-bit form; gives the place behind it. */
static uint8_t *put_number(uint8_t *at, uint32_t x)
{
    while (x >= 128) {
        *at++ = x % 128 + 128;
        x /= 128;
    }
    *at++ = x;
    return at;
}

/* Writes the record of an event; gives its byte count. */
static size_t put_record(uint8_t *record, const struct event *event)
{
    uint8_t *end = record;
    for (int i = 0; i < event->count; i++)
        end = put_number(end, event->numbers[i]);
    return end - record;
}

/* Reads a number in the seven-bit form; gives the place behind it. */
static const uint8_t *get_number(const uint8_t *at, uint32_t *x)
{
    int shift = 0;
    *x = 0;
    while (*at >= 128) {
        *x += (uint32_t)(*at++ - 128) << shift;
        shift += 7;
    }
    *x += (uint32_t)*at++ << shift;
    return at;
}

/* Writes a report, or a refusal (kind 0), in words, and keeps what it says of order 1. */
static void take_report(uint32_t kind, const uint32_t *f, uint32_t entered, char *text, size_t size)
{
    switch (kind) {
    case 0:
        snprintf(text, size, "refused, %" PRIu32, f[0]);
        break;
    case 1:
        snprintf(text, size, "order %" PRIu32 " accepted at %" PRIu32 ", stamp %" PRIu32, f[0], f[2], f[1]);
        if (f[0] == 1) {
            price = f[2];
            left = entered;
        }
        break;
    case 2:
        snprintf(text, size, "%" PRIu32 " buys %" PRIu32 " of %" PRIu32 " at %" PRIu32, f[0], f[3], f[1], f[2]);
        if (f[0] == 1 || f[1] == 1)
            left -= f[3];
        break;
    case 3:
        snprintf(text, size, "order %" PRIu32 " cancelled, %" PRIu32 " shares, cause %" PRIu32, f[0], f[1], f[2]);
        if (f[0] == 1)
            left -= f[1];
        break;
    case 4:
        snprintf(text, size, "order %" PRIu32 " re-priced to %" PRIu32 ", stamp %" PRIu32, f[0], f[1], f[2]);
        if (f[0] == 1)
            price = f[1];
        break;
    case 5:
        snprintf(text, size, "restriction on");
        break;
    case 6:
        snprintf(text, size, "day ended, phase %" PRIu32, f[0]);
        break;
    default:
        snprintf(text, size, "pause watch, a %s to %" PRIu32, f[0] == 1 ? "fall" : "rise", f[1]);
    }
}

/* Prints the line of the table for an event, whose bytes stand from a place up to an end. */
static void print_event(const struct event *event, const uint8_t *bytes, const uint8_t *end)
{
    static const int fields[] = {1, 3, 4, 3, 3, 0, 1, 2};
    const uint32_t *numbers = event->numbers;
    int refused = bytes < end && *bytes == 0;
    char line[400] = "";
    while (bytes < end) {
        uint32_t kind, f[4];
        char text[100];
        bytes = get_number(bytes, &kind);
        for (int i = 0; i < fields[kind]; i++)
            bytes = get_number(bytes, &f[i]);
        take_report(kind, f, numbers[0] == ENTRY || numbers[0] == OWNED_ENTRY ? numbers[4] : 0, text, sizeof text);
        snprintf(line + strlen(line), sizeof line - strlen(line), "%s%s", line[0] ? "; " : "", text);
    }
    if (!refused && numbers[0] == BID)
        bid = numbers[1];
    if (!refused && numbers[0] == DAY_END)
        bid = 0;
    printf("%-24s %6" PRIu32, event->what, bid);
    if (left > 0)
        printf(" %6" PRIu32, price);
    else
        printf(" %6s", "-");
    printf(" %5" PRIu32 "  %s\n", left, line[0] ? line : "-");
}

/* Plays on up to a length of the records, and prints a line for each event. A call that filled what was lent is followed by another. */
static void play(size_t length)
{
    for (;;) {
        /* a refusal 16 doesn't write progress */
        struct venue_progress progress = {0, offset, 0};
        uint32_t answer = venue_play(words, VENUE_WORDS, records, length, offset, reports, REPORT_BYTES, ends, ENDS, &progress);
        for (uint64_t i = 0; i < progress.events; i++)
            print_event(&day[played + i], reports + (i > 0 ? ends[i - 1] : 0), reports + ends[i]);
        played += progress.events;
        offset = progress.at;
        if (answer == VENUE_ALL_PLAYED)
            return;
        if (answer != VENUE_ENDS_FULL && answer != VENUE_REPORTS_FULL) {
            printf("play refused, %" PRIu32 ", at offset %" PRIu64 "\n", venue_refusal(answer), offset);
            exit(1);
        }
        if (progress.events == 0) {
            printf("reports or ends are too short for an event\n");
            exit(1);
        }
    }
}

/* Prints each resting order as copy out gives it, with the shares displayed at its price on its side. */
static void show_book(void)
{
    static struct venue_order run[VENUE_ORDERS];
    uint32_t count = venue_count(venue_copy_out(words, VENUE_WORDS, run, VENUE_ORDERS));
    for (uint32_t i = 0; i < count; i++) {
        const struct venue_order *o = &run[i];
        printf("resting: order %" PRIu32 ", %" PRIu32 " left at %" PRIu32 ", limit %" PRIu32 ", entry bid %" PRIu32 ", adjusted %" PRIu32 ", used %" PRIu32
               ", clear %" PRIu32 ", market %" PRIu32 ", owner %" PRIu32 "; displayed there: %" PRIu64 "\n",
               o->id, o->shares, o->price, o->limit, o->entry_bid, o->adjusted, o->used, o->clear, o->market, o->owner,
               venue_depth(run, count, o->price, o->mark));
    }
}

int main(void)
{
    uint32_t answer = venue_open(words, VENUE_WORDS, VENUE_CENT, 100000);
    if (answer != 0) {
        printf("open refused, %" PRIu32 "\n", venue_refusal(answer));
        return 1;
    }
    size_t length = 0, day_end = 0;
    for (int i = 0; i < EVENTS; i++) {
        if (day[i].numbers[0] == DAY_END)
            day_end = length;
        length += put_record(records + length, &day[i]);
    }
    printf("%-24s %6s %6s %5s  %s\n", "event", "bid", "price", "left", "reports");
    /* the records up to the day end; then on, with the whole length */
    play(day_end);
    show_book();
    play(length);
    return 0;
}
