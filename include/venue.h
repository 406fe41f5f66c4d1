/* The calls of the venue for host programs. Link out/libhost.a, which tools/libhost builds, and compile with the header that belongs to it: the
   size of an order record changes with the layout. */
#ifndef VENUE_H
#define VENUE_H

#include <stddef.h>
#include <stdint.h>

#ifdef __cplusplus
extern "C" {
#endif

/* A run of words, bytes, ends or order records is a pointer and a length, counted in words, bytes, ends or records. Nobody else writes it during
   the call, and a run that the call writes shares nothing with another. The pointer is never NULL, also where the length is 0. The same holds of a
   record that a call writes. */

/* The words of a venue. A longer run is a venue with further words behind it, which keep their content. Between the calls the words are the
   host's to copy and to store, and nobody's to change. */
#define VENUE_WORDS 4880

/* The number of the layout of these words. venue_open writes it, and words that were stored under another layout are refused with 16. */
#define VENUE_LAYOUT 5

/* The steps that venue_open, venue_permitted_price and venue_watch take, in ten-thousandths of a dollar. Legal prices are the whole numbers from 1 to 100,000,000, from 10,000 up
   the multiples of the step alone. A bid is 0 (no bid) or a legal price up to 100,000,000 less the step. */
#define VENUE_CENT 100
#define VENUE_HALF_CENT 50

/* The least length of a report buffer: the reports of an event always fit it. */
#define VENUE_REPORT_BYTES 16384

/* The most orders that rest, so a run of this many records is enough for venue_copy_out. */
#define VENUE_ORDERS 256

/* venue_open, venue_apply, venue_copy_out and venue_watch answer refusal * 65,536 + count: of bytes or of records, 0 where there is nothing to
   count. Refusal 0 is none; a refusal has the count 0. venue_play answers in the same way, with the reason why it stopped in place of a count.
   venue_would_fill answers the orders read, and VENUE_YES more for a yes: read it by venue_fills and venue_orders_read, not by venue_count. */
static inline uint32_t venue_refusal(uint32_t answer)
{
    return answer / 65536;
}

static inline uint32_t venue_count(uint32_t answer)
{
    return answer % 65536;
}

/* Makes the first VENUE_WORDS words a fresh venue with this step, after a day with this close: restriction off, no bid, no orders, no kept prices. Whatever stood there
   is gone. The step stays the venue's: every later price, bid and close is judged by it. The answer is 0, or a refusal, which changes no word:
   16  the run has fewer than VENUE_WORDS words
   17  the step is neither VENUE_CENT nor VENUE_HALF_CENT; the close isn't looked at
    3  the close isn't a legal price at this step */
uint32_t venue_open(uint32_t *words, size_t words_length, uint32_t step, uint32_t close);

/* Applies the event whose record stands at the front of the bytes; bytes behind it don't matter. docs/EVENTS.md has the form of event records and
   of reports. The event's reports stand at the front of the buffer afterwards, as many bytes as the count of the answer says; the bytes
   behind them keep their content. A refusal changes no word and no byte. 9 to 12 come first, judged from the front of the record, then the others
   in this order:
    9  the record breaks off
   10  a number of the record is bad: a tenth byte above 1, or a last group 0 after another
   11  the kind isn't 1 to 7
   12  a field is above 4,294,967,295
   16  the words aren't a venue. Those that venue_open made one stay one through every call of venue_apply and
       venue_play, whatever it answers
    1  the buffer has fewer than VENUE_REPORT_BYTES bytes
    2  the venue has accepted 16,777,215 events, the most it takes
    3  a price or a close that isn't legal, or a bid that isn't one, at the venue's step; the price 0 of an entry means market
    4  shares not 1 to 1,000,000
   18  the mark is above 3
    5  the show or the life is above 1
   19  the slide is above 3, whatever the mark
   20  a slide other than 0 with a mark other than short, 2
   21  the owner of an entry of kind 6 isn't 1 to 65,535
    6  the id isn't above that of the last accepted entry
    7  256 orders rest, and the entry needs a place: its life is 0, and it is no market order, unless one of a short while the restriction is on and a bid
       is present. Every other entry is taken into a full book too: it trades, and what is left of it is cancelled
    8  no order rests under the id to cancel
   22  the time of a timed tape price is before that of the last one accepted on the day
   23  512 timed tape prices of the day that were accepted before it have a time of at least its own less 300 */
uint32_t venue_apply(uint32_t *words, size_t words_length, const uint8_t *record, size_t record_length, uint8_t *reports,
                     size_t reports_length);

/* How far venue_play came. */
struct venue_progress {
    uint64_t events; /* the events played in the call; as many ends were written */
    uint64_t at;     /* the offset behind the last record played; from, where none was played */
    uint64_t bytes;  /* the bytes written to the report buffer */
};

/* Why venue_play stopped, where nothing is refused. */
#define VENUE_ALL_PLAYED 0   /* the offset is at or past the end of the records */
#define VENUE_ENDS_FULL 1    /* no place is left in ends */
#define VENUE_REPORTS_FULL 2 /* fewer than VENUE_REPORT_BYTES bytes are left for reports */

/* Plays the event records of a run one after another, from an offset on, each as venue_apply does. The bytes of the events stand one after another
   at the front of the report buffer: of an accepted event its reports, which may be none; of a refused one two bytes, 0 and its refusal, 2 to 8 or 18 to 23. No
   report begins with a byte 0. ends[i] is the offset behind the bytes of event i of the call, counted from 0; they begin at ends[i - 1], those of
   event 0 at 0. The answer is refusal * 65,536, or one of the three stops above, which are no refusals:
   16  the words aren't a venue. This is checked once, before all else; nothing is changed, progress neither
   Then, before each record, in this order: VENUE_ALL_PLAYED, VENUE_ENDS_FULL, VENUE_REPORTS_FULL, and
    9 to 12  the record at the offset can't be read, as in venue_apply. No byte is written for it
   With every answer but 16, progress says how far the call came. After VENUE_ENDS_FULL or VENUE_REPORTS_FULL the host takes out what it got and calls
   again with from = progress.at; where no event was played, what it lends is too short for any. After 9 it may call again with more bytes behind the
   records; 10 to 12 come again at the same offset. Records played in pieces give what they give in one call. An offset at or past the end plays
   nothing, and progress.at is then that offset.
   Words behind the venue, bytes behind those written and ends behind the last event keep their content.
   What to lend: each call checks the venue record, which takes about as long as an event, and longer where many orders rest or many prices are kept. So with room for one
   event in each call venue_play is no faster than venue_apply. With 1 MiB for reports and 65,536 ends the check no longer counts. */
uint32_t venue_play(uint32_t *words, size_t words_length, const uint8_t *records, size_t records_length, uint64_t from, uint8_t *reports,
                    size_t reports_length, uint64_t *ends, size_t ends_length, struct venue_progress *progress);

/* What venue_would_fill adds to the orders read for a yes. */
#define VENUE_YES 32768

/* Whether an entry with this mark, price and shares would fill in full now, and how many orders were read to tell. Nothing is changed.
   It would fill if the orders on the other side that it reaches, hidden ones too, have its shares or more. It reaches them by its working price: its limit,
   and of a short while the restriction is on the larger of its limit and the permitted price of the bid. The price 0 means market, as in an entry.
   Show, life and slide don't matter. It is asked for owner 0, so it tells of entries of kind 1: one of kind 6 with the same numbers cancels orders of its own
   owner that it meets, and may fill less. The orders are read in rising id, those of its own side and out of reach too, up to the one that completes the
   shares, or all of them; a book without orders is a no with 0 read.
   The answer is the orders read, at most VENUE_ORDERS, and VENUE_YES more for a yes; or refusal * 65,536. The refusals, in the order of an entry; a full book and
   the events accepted don't matter:
   16  the words aren't a venue
    3  the price isn't legal at the venue's step; 0 means market
    4  shares not 1 to 1,000,000
   18  the mark is above 3 */
uint32_t venue_would_fill(const uint32_t *words, size_t words_length, uint32_t mark, uint32_t price, uint32_t shares);

/* 1 for a yes; 0 for a no and for a refusal, which venue_refusal tells. */
static inline uint32_t venue_fills(uint32_t answer)
{
    return answer / VENUE_YES % 2;
}

/* The orders read; 0 for a refusal. */
static inline uint32_t venue_orders_read(uint32_t answer)
{
    return answer % VENUE_YES;
}

/* The byte count of the event record that stands at the front of the bytes; bytes behind it don't matter.
   0 on refusal: 9 to 12, as above. */
uint64_t venue_record_check(const uint8_t *bytes, size_t length);

/* The permitted price of a national best bid at a step, in ten-thousandths of a dollar: the lowest price that a restricted short sale may have.
   0 on refusal: the step is neither VENUE_CENT nor VENUE_HALF_CENT (17), or the number isn't a bid at this step (3). */
uint32_t venue_permitted_price(uint32_t step, uint32_t bid);

/* The record of an order: 15 words of 32 bits, 60 bytes with no padding, so that any bytes are a record. In what venue_copy_out writes, the price is
   the present one and the shares are those left. */
struct venue_order {
    uint32_t id;
    uint32_t mark;      /* 0 buy, 1 long sell, 2 short, 3 short exempt */
    uint32_t limit;     /* the price of its entry; 1 of a market short */
    uint32_t shares;
    uint32_t show;      /* 1 displayed, 0 not */
    uint32_t life;      /* 0 day */
    uint32_t slide;     /* 0 continuous, 1 once, 2 no more, 3 opt-out */
    uint32_t stamp;
    uint32_t price;
    uint32_t entry_bid; /* the national bid at its entry */
    uint32_t adjusted;  /* 1: priced above its limit by the restriction at its entry, or re-priced since; else 0 */
    uint32_t used;      /* 1: with slide once, re-priced to the larger of limit and entry bid; else 0 */
    uint32_t clear;     /* 1: the bid was 0 or below the present price when that price was given; else 0 */
    uint32_t market;    /* 1: a market short, which follows the bid and stays while there is none; else 0 */
    uint32_t owner;     /* the owner of its entry, 1 to 65,535; 0 of an entry of kind 1 */
};

/* Copies the resting orders to the front of the run, in rising id, and answers how many there are; the records behind them keep their content.
   The run may hold anything before the call. A refusal changes no record:
   16  the words aren't a venue
   14  the run has fewer records than orders rest */
uint32_t venue_copy_out(const uint32_t *words, size_t words_length, struct venue_order *run, size_t run_length);

/* The displayed shares at a present price in a run of order records, of buys where the side is 0, of sells where it is any other number. Mark 0
   counts as a buy, 1 to 3 as a sell; any other mark, and any show but 1, counts as nothing. The records may hold anything.
   UINT64_MAX on refusal: the run has over 256 records (15). */
uint64_t venue_depth(const struct venue_order *run, size_t run_length, uint32_t price, uint32_t side);

/* A host's own record of a close and the phase of the restriction under it: 0 off, 1 on since today, 2 on since yesterday. */
struct venue_watch_record {
    uint32_t close;
    uint32_t phase;
};

/* A tape price at a step: in phases 0 and 2, a price that is 10% or more below the close makes phase 1. Any close is taken. Any other
   number in the place of the phase stays. The answer is 0, or a refusal, which leaves the record as it was:
   17  the step is neither VENUE_CENT nor VENUE_HALF_CENT; the price isn't looked at
    3  the price isn't legal at this step */
uint32_t venue_watch(struct venue_watch_record *watch, uint32_t step, uint32_t price);

#ifdef __cplusplus
}
#endif

#endif
