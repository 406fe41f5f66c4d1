/* A host program in C: checks event records, asks for permitted prices at both steps, watches a close, applies single events by venue_apply, those of a
   firm among them, asks whether entries would fill, and sends timed tape prices.
   Build and run, from the repository's root:
   tools/libhost && cc -Wall -Wextra -Iinclude examples/host.c out/libhost.a -o out/host && out/host */
#include <inttypes.h>
#include <stdio.h>
#include <venue.h>

static void check(const char *what, const uint8_t *bytes, size_t length)
{
    printf("record check, %s: %" PRIu64 "\n", what, venue_record_check(bytes, length));
}

static void price(const char *what, uint32_t step, uint32_t bid)
{
    printf("permitted price at %" PRIu32 ", %s %" PRIu32 ": %" PRIu32 "\n", step, what, bid, venue_permitted_price(step, bid));
}

static void watch(uint32_t step, uint32_t phase, uint32_t tape)
{
    struct venue_watch_record record = {100000, phase};
    uint32_t answer = venue_watch(&record, step, tape);
    printf("watch at %" PRIu32 ", phase %" PRIu32 ", tape price %" PRIu32 ": refusal %" PRIu32 ", then phase %" PRIu32 "\n", step, phase, tape, venue_refusal(answer),
           record.phase);
}

static void apply(const char *what, uint32_t *words, const uint8_t *record, size_t length)
{
    static uint8_t reports[VENUE_REPORT_BYTES];
    uint32_t answer = venue_apply(words, VENUE_WORDS, record, length, reports, sizeof reports);
    printf("apply, %s: refusal %" PRIu32 ", count %" PRIu32 "\n", what, venue_refusal(answer), venue_count(answer));
}

static void ask(const uint32_t *words, uint32_t mark, uint32_t price, uint32_t shares)
{
    uint32_t answer = venue_would_fill(words, VENUE_WORDS, mark, price, shares);
    printf("would it fill, %" PRIu32 " %" PRIu32 " %" PRIu32 ": ", mark, price, shares);
    if (venue_refusal(answer) != 0)
        printf("refusal %" PRIu32 "\n", venue_refusal(answer));
    else
        printf("%s, %" PRIu32 " read\n", venue_fills(answer) ? "yes" : "no", venue_orders_read(answer));
}

/* Writes a number in the seven-bit form; gives the place behind it. */
static uint8_t *put_number(uint8_t *at, uint32_t x)
{
    while (x >= 128) {
        *at++ = x % 128 + 128;
        x /= 128;
    }
    *at++ = x;
    return at;
}

/* A timed tape price, a record of kind 7. Report 7 comes before all others of the event; its kind and its direction take a byte each. */
static void timed_tape(uint32_t *words, uint32_t time, uint32_t price)
{
    static uint8_t reports[VENUE_REPORT_BYTES];
    uint8_t record[11], *end = put_number(put_number(put_number(record, 7), time), price);
    uint32_t answer = venue_apply(words, VENUE_WORDS, record, end - record, reports, sizeof reports);
    printf("timed tape price, %" PRIu32 " %" PRIu32 ": ", time, price);
    if (venue_refusal(answer) != 0)
        printf("refusal %" PRIu32 "\n", venue_refusal(answer));
    else if (venue_count(answer) > 0 && reports[0] == 7)
        printf("report 7, %s\n", reports[1] == 1 ? "a fall" : "a rise");
    else
        printf("no report 7\n");
}

int main(void)
{
    static uint32_t words[VENUE_WORDS];
    /* bid 91,100; entry 1 2 90500 500 1 0 0 with two bytes behind it */
    static const uint8_t bid[] = {0x03, 0xDC, 0xC7, 0x05};
    static const uint8_t entry[] = {0x01, 0x01, 0x02, 0x84, 0xC3, 0x05, 0xF4, 0x03, 0x01, 0x00, 0x00, 0xFF, 0xFF};
    /* entry 2 0 90500 500 1 0 1: a buy with a slide */
    static const uint8_t buy_with_slide[] = {0x01, 0x02, 0x00, 0x84, 0xC3, 0x05, 0xF4, 0x03, 0x01, 0x00, 0x01};
    /* kind 6, an entry with an owner: 3 1 90400 100 1 0 0 7, a sell of firm 7; 4 0 90400 100 1 0 0 7, a buy of that firm, which cancels it; 5 0 90400 100 1 0 0 0,
       which names no firm */
    static const uint8_t firm_sells[] = {0x06, 0x03, 0x01, 0xA0, 0xC2, 0x05, 0x64, 0x01, 0x00, 0x00, 0x07};
    static const uint8_t firm_buys[] = {0x06, 0x04, 0x00, 0xA0, 0xC2, 0x05, 0x64, 0x01, 0x00, 0x00, 0x07};
    static const uint8_t no_firm[] = {0x06, 0x05, 0x00, 0xA0, 0xC2, 0x05, 0x64, 0x01, 0x00, 0x00, 0x00};
    static const uint8_t last_group_0[] = {0x03, 0x83, 0x00};
    static const uint8_t kind_8[] = {0x08, 0x01};
    static const uint8_t field_2_32[] = {0x02, 0x80, 0x80, 0x80, 0x80, 0x10};

    check("bid 91100", bid, sizeof bid);
    check("entry", entry, sizeof entry);
    check("bid cut short", bid, sizeof bid - 1);
    check("last group 0 after another", last_group_0, sizeof last_group_0);
    check("kind 8", kind_8, sizeof kind_8);
    check("a field of 2^32", field_2_32, sizeof field_2_32);
    check("empty", bid, 0);
    price("no bid", VENUE_CENT, 0);
    price("bid", VENUE_CENT, 9999);
    price("bid", VENUE_CENT, 91100);
    price("bid", VENUE_CENT, 99999900);
    price("not a bid", VENUE_CENT, 91150);
    price("not a bid", VENUE_CENT, 100000000);
    price("bid", VENUE_HALF_CENT, 9999);
    price("bid", VENUE_HALF_CENT, 91150);
    price("bid", VENUE_HALF_CENT, 99999950);
    price("not a bid", VENUE_HALF_CENT, 91125);
    price("not a step, bid", 75, 91100);
    watch(VENUE_CENT, 0, 90000);
    watch(VENUE_CENT, 0, 89950);
    watch(VENUE_CENT, 2, 90000);
    watch(VENUE_CENT, 9, 90000);
    watch(VENUE_HALF_CENT, 0, 89950);
    watch(75, 0, 90000);
    printf("open at 75: refusal %" PRIu32 "\n", venue_refusal(venue_open(words, VENUE_WORDS, 75, 0)));
    if (venue_open(words, VENUE_WORDS, VENUE_CENT, 100000) != 0)
        return 1;
    apply("bid 91100", words, bid, sizeof bid);
    apply("entry", words, entry, sizeof entry);
    apply("entry again", words, entry, sizeof entry);
    apply("buy with a slide", words, buy_with_slide, sizeof buy_with_slide);
    apply("firm 7 sells", words, firm_sells, sizeof firm_sells);
    apply("firm 7 buys", words, firm_buys, sizeof firm_buys);
    apply("owner 0", words, no_firm, sizeof no_firm);
    ask(words, 0, 90500, 500);
    ask(words, 0, 90400, 500);
    ask(words, 0, 0, 501);
    ask(words, 9, 90550, 0);
    ask(words, 9, 0, 1);
    timed_tape(words, 0, 100000);
    timed_tape(words, 300, 90000);
    timed_tape(words, 299, 90000);
    timed_tape(words, 300, 99000);
    timed_tape(words, 601, 81000);
    return 0;
}
