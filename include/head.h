/* The account of a prepay meter head: the C interface of libhead.a (`rt lib` in crates/head). C99 or later, C++11 or later.
 *
 * An account stands in the caller's memory as a prepay_account; the calls work on it in place. Firmware reads an event text by
 * prepay_read_terms and prepay_read_event and posts it event by event. prepay_page lays out a month for paper. prepay_transcript and
 * prepay_statement print a whole text.
 *
 * Units: amounts in cents, energy in Wh; days from the opening day, 0 to 399; months from the opening month, 0 to 14.
 *
 * Memory: every pointer must point to memory of the stated size and alignment (8 for an account, 4 for terms, events and readers, 1 for
 * bytes), readable, and writable where it is not const. During the call nobody else (a task, an interrupt, a transfer) may write any of it,
 * or read what is not const. The regions of one call must not overlap. A null pointer is allowed nowhere, not even with a count of 0. No
 * struct has padding. The library has no memory of its own, keeps no pointer after a call, and calls nothing but memcpy and memset. A call
 * that needs a second account is lent one by the caller (`prepay_account *scratch`, or the account to fill); none does yet.
 *
 * Tasks: there is no global state. Calls on different accounts may run at the same time. Calls on one account must not, except those that
 * take it as const, among each other. The same holds for a prepay_reader.
 * A call that is broken off (a reset, a task that is ended) may leave the account half changed: where an account must outlive that, post to
 * a copy and keep the old one until the call is back.
 *
 * Stack, in bytes, the greatest measured on good and on damaged numbers, the room for the answer included (bench/stack.c), on x86-64, for
 * which alone the kit builds:
 *   prepay_open 88, prepay_post 440, prepay_row 488, prepay_readings 56, prepay_summary 576, prepay_page 656, prepay_read_terms 344,
 *   prepay_read_event 264; for hosts prepay_transcript 9,272, prepay_statement 26,104.
 */
#ifndef PREPAY_HEAD_H
#define PREPAY_HEAD_H

#include <stddef.h>
#include <stdint.h>

/* The version of this interface: another number where a call, a struct or the meaning of an account's numbers is another. An account that
 * is kept over a change of firmware is kept with this number; its own numbers do not have it. */
#define PREPAY_VERSION 4

/* Limits. */
#define PREPAY_DAYS 400
#define PREPAY_MONTHS 15
#define PREPAY_CHARGE_KINDS 5
#define PREPAY_MAX_EVENTS 4096
#define PREPAY_MAX_PAYMENTS 128
#define PREPAY_PRICE_CELLS 17
#define PREPAY_MAX_TEXT 65536
/* A buffer of so many bytes holds any page. */
#define PREPAY_PAGE_ROOM 9782
/* The output buffers of prepay_transcript and prepay_statement. */
#define PREPAY_TRANSCRIPT_ROOM 655360
#define PREPAY_STATEMENT_ROOM 8192

/* Codes. Where several of 1 to 14 and 17 apply to an account's event, the lowest is given. */
enum {
    PREPAY_OK = 0,
    PREPAY_NO_ACCOUNT = 1,       /* terms outside their limits, or no account */
    PREPAY_BAD_DAY = 2,          /* before the last accepted event's day, or past day 399 */
    PREPAY_BAD_FIELD = 3,        /* sort, amount, price, Wh, kind or mark days outside their limits; a month without days */
    PREPAY_EVENTS_FULL = 4,      /* 4,096 events accepted */
    PREPAY_PAYMENTS_FULL = 5,    /* 128 payments accepted */
    PREPAY_BAD_PAYMENT = 6,      /* no payment of that number, or reversed already */
    PREPAY_USAGE_NOT_PAST = 7,   /* usage day not before the event's day */
    PREPAY_USAGE_NOT_BLANK = 8,  /* estimate on a day that is not blank, read on a metered day */
    PREPAY_PLAN_NOT_ALLOWED = 9, /* the plan kind's condition fails */
    PREPAY_PLAN_UNPAID = 10,     /* a plan while the unpaid plan is above 0 */
    PREPAY_SERVICE_AS_ASKED = 11, /* disconnect while off, connect while on */
    PREPAY_BAD_BALANCE = 12,     /* disconnect at or above the cutoff, connect below the connection balance */
    PREPAY_NO_WARNING = 13,      /* no warning one to seven days old */
    PREPAY_DAY_BARRED = 14,
    PREPAY_BAD_TEXT = 15,        /* text malformed, or longer than 65,536 bytes */
    PREPAY_SHORT_BUFFER = 16,    /* codes shorter than the row, or out than the page */
    PREPAY_PRICES_FULL = 17,     /* 16 days after day 0 have a price, and this day is not among them */
    PREPAY_END = 255             /* prepay_read_event: the text has no further event */
};

/* The sorts of events. */
enum {
    PREPAY_PAY = 1,
    PREPAY_REVERSE = 2,
    PREPAY_CREDIT = 3,
    PREPAY_CHARGE = 4,
    PREPAY_ESTIMATE = 5,
    PREPAY_READ = 6,
    PREPAY_WARN = 7,
    PREPAY_MARK = 8,
    PREPAY_PLAN = 9,
    PREPAY_DISCONNECT = 10,
    PREPAY_CONNECT = 11,
    PREPAY_PRICE = 12
};

/* The kinds of charges, of marks and of plans. */
enum {
    PREPAY_CHARGE_DELIVERY = 1, /* delivery utility charge */
    PREPAY_CHARGE_TAX = 2,
    PREPAY_CHARGE_RECONNECTION = 3,
    PREPAY_CHARGE_RETURNED_PAYMENT = 4,
    PREPAY_CHARGE_OTHER = 5,
    PREPAY_MARK_WEATHER = 1,      /* extreme weather emergency */
    PREPAY_MARK_PAYMENT_DOWN = 2, /* payment means down */
    PREPAY_MARK_PLEDGE = 3,       /* confirmed assistance pledge */
    PREPAY_PLAN_KIND_REQUIRED = 1,
    PREPAY_PLAN_KIND_OFFERED = 2
};

/* The opening terms. */
typedef struct {
    uint32_t year, month, day; /* the opening date, 2000-01-01 to 2099-12-31 */
    uint32_t price;            /* the opening price, 1 to 99,999 hundredths of a cent per kWh; it stays when a price event comes */
    uint32_t connect;          /* connection balance, 0 to 7,500 */
    uint32_t cutoff;           /* disconnection balance, 0 to 1,000 and at most connect */
    uint32_t share;            /* per cent of a payment that goes to a deferred payment plan, 0 to 50 */
} prepay_terms;

/* An event. All nine numbers must be set; those that its sort does not name may have any value, and change no answer. */
typedef struct {
    uint32_t sort;
    uint32_t day;      /* 0 to 399, not before the last accepted event's */
    uint32_t amount;   /* pay, credit, charge: 1 to 10,000,000 cents; price: 1 to 99,999 hundredths of a cent per kWh, from `day` on */
    uint32_t number;   /* reverse: the payment's number, the value that its pay was answered */
    uint32_t kind;     /* charge 1 to 5, mark 1 to 3, plan 1 or 2 */
    uint32_t usage;    /* estimate, read: the usage day, before `day` */
    uint32_t wh;       /* estimate, read: 0 to 9,999,999 */
    uint32_t from, to; /* mark: its first and last day, day <= from <= to <= 399 */
} prepay_event;

/* One account: 8,464 bytes, aligned to 8. Its numbers are the library's own; a copy of the bytes is a copy of the account, for
 * machines of the same byte order.
 * Any numbers are read as an account: whatever they are, no call reads or writes elsewhere, wraps a sum or runs without end. They are no
 * account, and every event and every month gets 1, where the terms are outside their limits (as in memory of zeros), `count` is above 128,
 * or one of credit, debit, plan and standing is above 2^60; a charge that nothing else refuses gets 1 where the sum that it adds to is above
 * 2^60, and an estimate or a read that 2, 3, 4 or 7 does not refuse gets 1 where the price of its usage day is above 99,999. No account that
 * these calls alone have written is such.
 * An accepted event writes the totals, and at most one payment, one usage day, one sum of charges, one price, one byte of `warned`, and in
 * `marks` the days of its mark; as these calls write them: yes as 1, no as 0, a blank day as 0, 0, 0. The payment `number` modulo 128 and the
 * usage day `usage` modulo 400 may be written so, read as before, even where the event's sort names none. All other numbers stay. */
typedef struct {
    uint64_t credit, debit;           /* the balance is credit less debit; both only grow */
    uint64_t plan, standing;          /* the unpaid plan; the cost of the standing estimates */
    uint32_t count, events, last, on; /* payments and events accepted; the last one's day; service: 1 is on, any other number off */
} prepay_totals;

typedef struct {
    uint32_t state, wh, cost; /* state: 1 estimated, 2 metered, any other number blank */
} prepay_day;

typedef struct {
    uint32_t day, amount, part, reversed; /* reversed: 1 is yes, any other number no */
} prepay_payment;

/* A price in force for usage days from a day on. A usage day costs by the price in force on it, whenever its estimate or read is posted, and
 * no later event changes that cost. A second price of a day replaces the first; one of day 0 replaces the opening price, and takes none of
 * the sixteen places.
 * The first of an account's cells is day 0's, the next ones are those of later days, in order; a cell that is not taken has day 400. For
 * usage day u the cells are passed up to the first whose day is above u: the price is that of the last passed, or the terms' where none is,
 * as never in an account. A price posted on day x goes to the first cell whose day is not below x, as x and the price; where there is none
 * it gets 17. No other event changes a cell. */
typedef struct {
    uint32_t day, price;
} prepay_price;

typedef struct {
    prepay_totals totals;
    uint64_t charges[PREPAY_MONTHS * PREPAY_CHARGE_KINDS]; /* month m's of kind k are summed at 5 m + k - 1 */
    prepay_terms terms;
    prepay_price prices[PREPAY_PRICE_CELLS];
    prepay_day days[PREPAY_DAYS];
    prepay_payment payments[PREPAY_MAX_PAYMENTS];
    uint32_t spare;              /* 0 */
    uint8_t marks[PREPAY_DAYS];  /* a mark of kind k is the bit of value 1, 2, 4 for k = 1, 2, 3; other bits mean nothing, and stay */
    uint8_t warned[PREPAY_DAYS]; /* 1: a warning was accepted on the day; any other number: none */
} prepay_account;

#define PREPAY_ACCOUNT_SIZE 8464
#define PREPAY_ACCOUNT_ALIGN 8

/* What an event or a page is answered: its code; and, where that is 0, the payment's number (pay), the usage day's cost (estimate, read), the
 * plan's sum (plan) or the page's length. The value is 0 in every other case. */
typedef struct {
    uint64_t code, value;
} prepay_answer;

/* The readings of an account. They have no code: of memory that is no account they are what its numbers say. */
typedef struct {
    int64_t balance;    /* 0 where credit or debit is above 2^60 */
    int64_t settled;    /* the settled amount: balance less plan plus estimates; 0 where a total is above 2^60 */
    uint64_t plan;      /* the unpaid plan */
    uint64_t estimates; /* the cost of the standing estimates */
    uint64_t service;   /* 1 on, 0 off */
} prepay_reading;

/* The figures of a month. The code is 1 for no account, then 3 for a month that holds none of days 0 to 399, then 1 where the month's
 * charges of some kind are above 2^40, as no account's are. Where it is not 0, all else is 0. */
typedef struct {
    uint64_t code;
    uint64_t kept_count, kept_sum;         /* payments of the month, not reversed */
    uint64_t reversed_count, reversed_sum; /* and of those reversed */
    uint64_t metered_wh, metered_cost;
    uint64_t estimated_wh, estimated_cost;
    uint64_t charges[PREPAY_CHARGE_KINDS]; /* kinds 1 to 5 */
    uint64_t average;    /* price, hundredths of a cent per kWh */
    uint64_t missing;    /* 1 where there is no energy, so no average; else 0 */
} prepay_figures;

/* How far a text has been read: the byte at which the next event starts, and 0; or PREPAY_END or 15, which ended the reading and is
 * answered again, whatever the text. Any other code is read as 15, and stays; a place past the text's end is malformed. At the end `place` is
 * the text's length; at 15 it is where the malformed event starts, and 0 where the terms were malformed. */
typedef struct {
    uint32_t place, code;
} prepay_reader;

#if defined(__cplusplus) && __cplusplus >= 201103L
#define PREPAY_HOLDS(claim) static_assert(claim, #claim)
#define PREPAY_ALIGN_OF alignof
#elif defined(__STDC_VERSION__) && __STDC_VERSION__ >= 201112L
#define PREPAY_HOLDS(claim) _Static_assert(claim, #claim)
#define PREPAY_ALIGN_OF _Alignof
#endif
#ifdef PREPAY_HOLDS
PREPAY_HOLDS(sizeof(prepay_account) == PREPAY_ACCOUNT_SIZE);
PREPAY_HOLDS(PREPAY_ALIGN_OF(prepay_account) == PREPAY_ACCOUNT_ALIGN);
PREPAY_HOLDS(sizeof(prepay_terms) == 7 * sizeof(uint32_t));
PREPAY_HOLDS(sizeof(prepay_event) == 9 * sizeof(uint32_t));
PREPAY_HOLDS(sizeof(prepay_reader) == 2 * sizeof(uint32_t));
PREPAY_HOLDS(sizeof(prepay_answer) == 2 * sizeof(uint64_t));
PREPAY_HOLDS(sizeof(prepay_reading) == 5 * sizeof(uint64_t));
PREPAY_HOLDS(sizeof(prepay_figures) == (11 + PREPAY_CHARGE_KINDS) * sizeof(uint64_t));
PREPAY_HOLDS(PREPAY_PAGE_ROOM == 73 * (6 + PREPAY_MAX_PAYMENTS));
#undef PREPAY_HOLDS
#undef PREPAY_ALIGN_OF
#endif

#ifdef __cplusplus
extern "C" {
#endif

/* The version that the library was built with: where it is not PREPAY_VERSION, header and library are not of the same firmware. */
uint32_t prepay_version(void);

/* ---- one account */

/* Fills `account` with a fresh account, whatever stood there (every number 0 but the terms, the opening price in the first cell of the
 * prices, and day 400 in the others), and answers 0; or answers 1 and leaves every byte as it was where the terms are outside their limits. */
uint8_t prepay_open(prepay_account *account, const prepay_terms *terms);

/* Posts one event. A refused event changes no byte of the account. */
prepay_answer prepay_post(prepay_account *account, const prepay_event *event);

/* Posts `count` events in order and puts each one's code into its byte of `codes`; a refused event does not stop the row. Answers 0; or
 * 16, nothing posted and nothing written, where `codes` has fewer bytes than the row has events. Bytes past the row stay as they are. */
uint8_t prepay_row(prepay_account *account, const prepay_event *row, size_t count, uint8_t *codes, size_t codes_len);

prepay_reading prepay_readings(const prepay_account *account);

/* The figures of month `month`, 0 being the opening month. */
prepay_figures prepay_summary(const prepay_account *account, uint32_t month);

/* Lays the page of month `month` into `out`, from its start: lines of 72 columns and a line feed. Answers 0 and the page's length in bytes:
 * 438, and 73 more for each kept payment of the month; the bytes after the page stay as they are, and no 0 byte is put there. Or answers, with
 * value 0 and `out` as it was, the code of prepay_summary where that is not 0 (1, 3), then 16 where `out` has fewer bytes than the page.
 * The lines, in this order, each label from column 1, each figure with two decimals, without sign or separators, in the last 14 columns and its
 * end in column 72, all else spaces:
 *   Month YYYY-MM           no figure
 *   Paid YYYY-MM-DD         dollars, the plan's part too; a line for each kept payment of the month, by number
 *   Usage N Wh              the cost in dollars; N is metered and estimated energy together, and so is the cost
 *   Kind 3, Kind 4, Kind 5  dollars; a line for each of these kinds of charges
 *   Average                 cents per kWh; spaces where there is no energy, or where it is wider than 14 columns */
prepay_answer prepay_page(const prepay_account *account, uint32_t month, uint8_t *out, size_t out_len);

/* ---- an event text, event by event */

/* Reads the terms of a text into `terms` and starts `reader` at its first event; answers 0. Answers 15 where the terms are malformed or the
 * text is longer than 65,536 bytes: the reader then holds 15, `terms` stays as it was. Their limits are judged by prepay_open. */
uint8_t prepay_read_terms(const uint8_t *text, size_t text_len, prepay_reader *reader, prepay_terms *terms);

/* Reads the next event of the same text into `event`, 0 in the fields that its sort does not name; answers 0. Answers PREPAY_END at the end
 * of the text, 15 where the event is malformed or the text longer than 65,536 bytes: `event` stays as it was, and every further call
 * answers the same. */
uint8_t prepay_read_event(const uint8_t *text, size_t text_len, prepay_reader *reader, prepay_event *event);

/* ---- an event text, printed whole */

/* Puts what `prepay` prints for the text into `out`, from its start, and answers how many bytes; the bytes after them stay as they are.
 * Where `out` has fewer than PREPAY_TRANSCRIPT_ROOM bytes it stays as it is, and the answer is 0. */
size_t prepay_transcript(const uint8_t *text, size_t text_len, uint8_t *out, size_t out_len);

/* The same for what `summary` prints, the figures of months 0 to 14, and PREPAY_STATEMENT_ROOM. */
size_t prepay_statement(const uint8_t *text, size_t text_len, uint8_t *out, size_t out_len);

#ifdef __cplusplus
}
#endif

#endif
