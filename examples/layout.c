/* That the structs of include/head.h are the library's.
 *
 * `layout check`, by what the calls do: every field of terms, events, account, answers, readings, figures and reader gets a value that is known
 * by another way, from the event text that prepay_transcript and prepay_statement print. Two fields exchanged, in the header or in the
 * library, are found. Prices and pages are held to document 02. `layout print` prints size and alignment of every struct, and place, size and sign of every field: run.sh holds them to
 * what Rattle proves of its types (layout.py).
 */
#include <stddef.h>
#include <stdio.h>
#include <stdlib.h>
#include <string.h>

#include "head.h"

/* ---- print */

#define SIGNED(e) _Generic((e), int8_t : 1, int16_t : 1, int32_t : 1, int64_t : 1, default : 0)
#define TYPE(t) printf("%s size=%zu align=%zu\n", #t, sizeof(t), _Alignof(t))
#define FIELD(t, f)                                                                                                                \
    printf("%s.%s at=%zu size=%zu%s\n", #t, #f, offsetof(t, f), sizeof(((t *)0)->f), SIGNED(((t *)0)->f) ? " signed" : "")

static void print(void) {
#include "layout_fields.h" /* of head.h, by layout.py */
}

/* ---- check */

static int wrong;

static void expect(int held, const char *what) {
    if (!held) {
        printf("WRONG: %s\n", what);
        wrong = 1;
    }
}

static const prepay_terms terms = {
    .year = 2024, .month = 3, .day = 18, .price = 1250, .connect = 5000, .cutoff = 999, .share = 49,
};

static const prepay_event events[] = {
    {.sort = PREPAY_PAY, .day = 0, .amount = 6001},
    {.sort = PREPAY_CONNECT, .day = 0},
    {.sort = PREPAY_CHARGE, .day = 1, .kind = PREPAY_CHARGE_DELIVERY, .amount = 12007},
    {.sort = PREPAY_PLAN, .day = 1, .kind = PREPAY_PLAN_KIND_OFFERED}, /* the balance was -6006: 11006 are deferred */
    {.sort = PREPAY_PAY, .day = 2, .amount = 3001},
    {.sort = PREPAY_PAY, .day = 2, .amount = 501},
    {.sort = PREPAY_PRICE, .day = 2, .amount = 2503},
    {.sort = PREPAY_PAY, .day = 3, .amount = 701},
    {.sort = PREPAY_PAY, .day = 3, .amount = 90011},
    {.sort = PREPAY_REVERSE, .day = 3, .number = 2},
    {.sort = PREPAY_REVERSE, .day = 4, .number = 3},
    {.sort = PREPAY_CHARGE, .day = 4, .kind = PREPAY_CHARGE_TAX, .amount = 23},
    {.sort = PREPAY_CHARGE, .day = 4, .kind = PREPAY_CHARGE_RECONNECTION, .amount = 37},
    {.sort = PREPAY_CHARGE, .day = 4, .kind = PREPAY_CHARGE_RETURNED_PAYMENT, .amount = 41},
    {.sort = PREPAY_CHARGE, .day = 4, .kind = PREPAY_CHARGE_OTHER, .amount = 59},
    {.sort = PREPAY_ESTIMATE, .day = 5, .usage = 1, .wh = 30000},
    {.sort = PREPAY_ESTIMATE, .day = 5, .usage = 2, .wh = 31111},
    {.sort = PREPAY_READ, .day = 6, .usage = 1, .wh = 32000},
    {.sort = PREPAY_WARN, .day = 7},
    {.sort = PREPAY_MARK, .day = 8, .kind = PREPAY_MARK_PLEDGE, .from = 9, .to = 10},
    {.sort = PREPAY_CREDIT, .day = 8, .amount = 77},
    {.sort = PREPAY_DISCONNECT, .day = 8}, /* 12 */
    {.sort = PREPAY_CHARGE, .day = 40, .kind = PREPAY_CHARGE_DELIVERY, .amount = 61}, /* month 1, without energy */
};
enum { EVENTS = sizeof events / sizeof events[0], REFUSED = 21 };

/* The event with a number in the fields that its sort does not name too, whose value changes no answer. */
static prepay_event posted(size_t i) {
    uint32_t numbers[9];
    prepay_event e = events[i];
    memcpy(numbers, &e, sizeof e);
    for (uint32_t k = 2; k < 9; k++)
        if (numbers[k] == 0)
            numbers[k] = 70000 + k;
    memcpy(&e, numbers, sizeof e);
    return e;
}

static char text[4096];
static size_t text_len, terms_len;

static void write_text(void) {
    static const char *const words[] = {"",     "pay",  "reverse", "credit", "charge",     "estimate",
                                        "read", "warn", "mark",    "plan",   "disconnect", "connect",  "price"};
#define PUT(...) text_len += (size_t)snprintf(text + text_len, sizeof text - text_len, __VA_ARGS__)
    PUT("open=%04u-%02u-%02u\nprice=%u\nconnect=%u\ncutoff=%u\nshare=%u\n", terms.year, terms.month, terms.day, terms.price, terms.connect,
        terms.cutoff, terms.share);
    terms_len = text_len;
    for (const prepay_event *e = events; e < events + EVENTS; e++) {
        PUT("day=%u\ndo=%s\n", e->day, words[e->sort]);
        /* In the order of the text's keys. */
        if (e->kind) PUT("kind=%u\n", e->kind);
        if (e->amount) PUT("%s=%u\n", e->sort == PREPAY_PRICE ? "price" : "amount", e->amount);
        if (e->number) PUT("number=%u\n", e->number);
        if (e->usage) PUT("usage=%u\nwh=%u\n", e->usage, e->wh);
        if (e->to) PUT("from=%u\nto=%u\n", e->from, e->to);
    }
}

/* An account between guard bytes. */
typedef struct {
    uint8_t before[256];
    prepay_account account;
    uint8_t after[256];
} guarded;
static guarded one, two;

static void fill(guarded *g, uint8_t byte) {
    memset(g, 0xA5, sizeof *g);
    memset(&g->account, byte, sizeof g->account);
}

static void guards_stand(const guarded *g, const char *what) {
    for (size_t i = 0; i < sizeof g->before; i++)
        if (g->before[i] != 0xA5 || g->after[i] != 0xA5)
            expect(0, what);
}

/* Every byte of a fresh account is filled, and none beside it; with refused terms none. */
static void opening(void) {
    prepay_terms refused = terms;
    refused.cutoff = terms.connect + 1;
    fill(&one, 0);
    fill(&two, 0xFF);
    guarded before = two;
    expect(prepay_open(&two.account, &refused) == PREPAY_NO_ACCOUNT, "refused terms are 1");
    expect(memcmp(&two, &before, sizeof two) == 0, "refused terms change no byte");
    expect(prepay_open(&one.account, &terms) == PREPAY_OK && prepay_open(&two.account, &terms) == PREPAY_OK, "prepay_open answers 0");
    expect(memcmp(&one, &two, sizeof one) == 0, "prepay_open fills every byte of the account");
    prepay_account *unwritten = malloc(sizeof *unwritten); /* for valgrind, which sees a byte that nothing wrote */
    expect(unwritten && prepay_open(unwritten, &terms) == PREPAY_OK && memcmp(unwritten, &one.account, sizeof *unwritten) == 0,
           "prepay_open reads nothing of the account");
    free(unwritten);
    guards_stand(&one, "prepay_open writes inside the account");
    prepay_account fresh;
    memset(&fresh, 0, sizeof fresh);
    fresh.terms = terms;
    fresh.prices[0].price = terms.price;
    for (size_t i = 1; i < PREPAY_PRICE_CELLS; i++)
        fresh.prices[i].day = 400;
    expect(memcmp(&one.account, &fresh, sizeof fresh) == 0, "a fresh account is its terms, the opening price, no other, and 0 in every other field");
}

/* The number after a key in a line, held to a field. */
static void held(const char *line, const char *key, uint64_t got, const char *what) {
    const char *at = strstr(line, key);
    expect(at && (uint64_t)strtoll(at + strlen(key), NULL, 10) == got, what);
}
#define HELD(line, key, field) held(line, key "=", (uint64_t)(field), #field)

/* The first `count` numbers of a struct are pairwise different, so that none can stand in another's place. */
static void all_different(const void *of, size_t count, const char *what) {
    uint64_t n[16];
    memcpy(n, of, count * sizeof n[0]);
    for (size_t i = 0; i < count; i++)
        for (size_t j = 0; j < i; j++)
            expect(n[i] != n[j], what);
}

static void figures(void) {
    static uint8_t transcript[PREPAY_TRANSCRIPT_ROOM + 1], statement[PREPAY_STATEMENT_ROOM + 1];
    transcript[prepay_transcript((const uint8_t *)text, text_len, transcript, PREPAY_TRANSCRIPT_ROOM)] = 0;
    statement[prepay_statement((const uint8_t *)text, text_len, statement, PREPAY_STATEMENT_ROOM)] = 0;

    /* Answers and readings, line by line of the transcript. */
    const char *line = (const char *)transcript;
    for (size_t i = 0; i < EVENTS; i++) {
        prepay_event e = posted(i);
        prepay_answer answer = prepay_post(&one.account, &e);
        prepay_reading reading = prepay_readings(&one.account);
        HELD(line, "n", i + 1);
        HELD(line, " code", answer.code);
        HELD(line, " value", answer.value);
        HELD(line, " balance", reading.balance);
        HELD(line, " plan", reading.plan);
        expect(reading.service == (i > 0), "reading.service");
        line = strchr(line, '\n') + 1;
    }
    guards_stand(&one, "prepay_post writes inside the account");
    prepay_reading reading = prepay_readings(&one.account);
    HELD(line, "settled", reading.settled);
    HELD(line, "estimates", reading.estimates);
    all_different(&reading, 5, "the readings are pairwise different");

    /* Figures of the months, line by line of the statement. */
    line = (const char *)statement;
    for (uint32_t month = 0; month < PREPAY_MONTHS; month++) {
        prepay_figures f = prepay_summary(&one.account, month);
        HELD(line, "m", month);
        HELD(line, " code", f.code);
        HELD(line, " kept_count", f.kept_count);
        HELD(line, " kept_sum", f.kept_sum);
        HELD(line, " reversed_count", f.reversed_count);
        HELD(line, " reversed_sum", f.reversed_sum);
        HELD(line, " metered_wh", f.metered_wh);
        HELD(line, " metered_cost", f.metered_cost);
        HELD(line, " estimated_wh", f.estimated_wh);
        HELD(line, " estimated_cost", f.estimated_cost);
        HELD(line, " kind1", f.charges[0]);
        HELD(line, " kind2", f.charges[1]);
        HELD(line, " kind3", f.charges[2]);
        HELD(line, " kind4", f.charges[3]);
        HELD(line, " kind5", f.charges[4]);
        HELD(line, " average", f.average);
        HELD(line, " missing", f.missing);
        if (month == 0) /* all but `missing`, which is 0 as the code is, and 1 in month 1 */
            all_different(&f, 15, "the figures of month 0 are pairwise different");
        expect(f.missing == (month >= 1 && month <= 13) && (f.code == 3) == (month == 14), "code and missing by the month");
        line = strchr(line, '\n') + 1;
    }
    expect(*line == 0, "the statement has fifteen lines");
}

/* The account's own fields, after the events. */
static void account_fields(void) {
    const prepay_account *a = &one.account;
    const prepay_totals *t = &a->totals;
    prepay_reading now = prepay_readings(a);
    expect(t->count == 5 && t->events == EVENTS - 1 && t->last == 40 && t->on == 1, "totals: count, events, last, on");
    expect(t->plan == now.plan && t->standing == now.estimates, "totals: plan, standing");
    expect((int64_t)(t->credit - t->debit) == now.balance && t->credit > t->debit && now.balance > 0, "totals: credit, debit");
    expect(a->charges[0] == 12007 && a->charges[1] == 23 && a->charges[4] == 59 && a->charges[5] == 61, "charges, by month and kind");
    expect(memcmp(&a->terms, &terms, sizeof terms) == 0, "terms");
    static const prepay_price prices[] = {{.day = 0, .price = 1250}, {.day = 2, .price = 2503}, {.day = 400, .price = 0}};
    expect(memcmp(a->prices, prices, sizeof prices) == 0 && memcmp(a->prices + 2, a->prices + 3, (PREPAY_PRICE_CELLS - 3) * sizeof *prices) == 0,
           "prices");
    static const prepay_day metered = {.state = 2, .wh = 32000, .cost = 400}, estimated = {.state = 1, .wh = 31111, .cost = 779};
    expect(memcmp(&a->days[1], &metered, sizeof metered) == 0 && memcmp(&a->days[2], &estimated, sizeof estimated) == 0, "days");
    static const prepay_payment reversed = {.day = 3, .amount = 701, .part = 343, .reversed = 1};
    expect(memcmp(&a->payments[3], &reversed, sizeof reversed) == 0, "payments");
    expect(a->payments[4].day == 3 && a->payments[4].amount == 90011 && a->payments[4].reversed == 0, "payments, the last");
    expect(a->spare == 0, "spare");
    for (size_t day = 0; day < PREPAY_DAYS; day++)
        expect((a->marks[day] != 0) == (day == 9 || day == 10) && (a->warned[day] != 0) == (day == 7), "marks, warned");
}

/* Rows of every length leave the same account and the same codes, and nothing is written around them. */
static void rows(void) {
    static prepay_event row[EVENTS + 2], as_lent[EVENTS + 2];
    uint8_t codes[EVENTS + 64];
    memset(row, 0xA5, sizeof row);
    for (size_t i = 0; i < EVENTS; i++)
        row[i + 1] = posted(i);
    memcpy(as_lent, row, sizeof row);
    for (size_t part = 1; part <= EVENTS; part++) {
        fill(&two, 0x5A);
        expect(prepay_open(&two.account, &terms) == PREPAY_OK, "prepay_open answers 0");
        for (size_t at = 0; at < EVENTS; at += part) {
            size_t count = EVENTS - at < part ? EVENTS - at : part;
            memset(codes, 0xA5, sizeof codes);
            expect(prepay_row(&two.account, row + 1 + at, count, codes + 32, count) == PREPAY_OK, "prepay_row answers 0");
            for (size_t i = 0; i < sizeof codes; i++)
                expect(codes[i] == (i < 32 || i >= 32 + count ? 0xA5 : at + i - 32 == REFUSED ? PREPAY_BAD_BALANCE : PREPAY_OK),
                       "prepay_row writes the row's codes, each in its byte");
        }
        expect(memcmp(&one, &two, sizeof one) == 0, "rows leave the account as single posts do");
        expect(memcmp(row, as_lent, sizeof row) == 0, "prepay_row leaves the row as it is");
    }
}

/* The text read back. */
static void reading(void) {
    struct {
        uint8_t before[64];
        prepay_reader reader;
        prepay_terms terms;
        prepay_event event;
        uint8_t after[64];
    } r;
    memset(&r, 0xA5, sizeof r);
    expect(prepay_read_terms((const uint8_t *)text, text_len, &r.reader, &r.terms) == PREPAY_OK, "prepay_read_terms answers 0");
    expect(memcmp(&r.terms, &terms, sizeof terms) == 0, "the terms read are those written");
    expect(r.reader.place == terms_len && r.reader.code == PREPAY_OK, "the reader stands at the first event");
    for (size_t i = 0; i < EVENTS; i++) {
        expect(prepay_read_event((const uint8_t *)text, text_len, &r.reader, &r.event) == PREPAY_OK, "prepay_read_event answers 0");
        expect(memcmp(&r.event, &events[i], sizeof r.event) == 0, "the events read are those written");
    }
    for (int again = 0; again < 2; again++) {
        expect(prepay_read_event((const uint8_t *)text, text_len, &r.reader, &r.event) == PREPAY_END, "then the end");
        expect(r.reader.place == text_len && r.reader.code == PREPAY_END, "the reader stands at the end");
    }
    for (size_t i = 0; i < sizeof r.before; i++)
        expect(r.before[i] == 0xA5 && r.after[i] == 0xA5, "the reading calls write inside what is lent");
}

/* Each code by its name, from an account where it applies; the kinds by document 01's numbers, and by what tells them apart. */
static void names(void) {
    static const struct {
        prepay_event event;
        uint64_t code;
    } posts[] = {
        {{.sort = PREPAY_PAY, .day = PREPAY_DAYS, .amount = 1}, PREPAY_BAD_DAY},
        {{.sort = PREPAY_PRICE + 1}, PREPAY_BAD_FIELD},
        {{.sort = PREPAY_REVERSE, .number = 0}, PREPAY_BAD_PAYMENT},
        {{.sort = PREPAY_ESTIMATE, .usage = 0}, PREPAY_USAGE_NOT_PAST},
        {{.sort = PREPAY_ESTIMATE, .day = 1, .usage = 0}, PREPAY_OK},
        {{.sort = PREPAY_ESTIMATE, .day = 1, .usage = 0}, PREPAY_USAGE_NOT_BLANK},
        {{.sort = PREPAY_PLAN, .day = 1, .kind = PREPAY_PLAN_KIND_OFFERED}, PREPAY_PLAN_NOT_ALLOWED},
        {{.sort = PREPAY_CHARGE, .day = 1, .kind = PREPAY_CHARGE_OTHER, .amount = 6000}, PREPAY_OK},
        {{.sort = PREPAY_DISCONNECT, .day = 1}, PREPAY_SERVICE_AS_ASKED},
        {{.sort = PREPAY_CONNECT, .day = 1}, PREPAY_BAD_BALANCE},
        {{.sort = PREPAY_MARK, .day = 1, .kind = PREPAY_MARK_PAYMENT_DOWN, .from = 1, .to = 2}, PREPAY_OK},
        {{.sort = PREPAY_MARK, .day = 1, .kind = PREPAY_MARK_PLEDGE, .from = 1, .to = 1}, PREPAY_OK},
        {{.sort = PREPAY_PLAN, .day = 1, .kind = PREPAY_PLAN_KIND_REQUIRED}, PREPAY_PLAN_NOT_ALLOWED},
        {{.sort = PREPAY_MARK, .day = 1, .kind = PREPAY_MARK_WEATHER, .from = 1, .to = 1}, PREPAY_OK},
        {{.sort = PREPAY_PLAN, .day = 1, .kind = PREPAY_PLAN_KIND_REQUIRED}, PREPAY_OK},
        {{.sort = PREPAY_CHARGE, .day = 1, .kind = PREPAY_CHARGE_OTHER, .amount = 6000}, PREPAY_OK},
        {{.sort = PREPAY_PLAN, .day = 1, .kind = PREPAY_PLAN_KIND_OFFERED}, PREPAY_PLAN_UNPAID},
        {{.sort = PREPAY_CREDIT, .day = 1, .amount = 6000}, PREPAY_OK},
        {{.sort = PREPAY_CONNECT, .day = 1}, PREPAY_OK},
        {{.sort = PREPAY_CHARGE, .day = 1, .kind = PREPAY_CHARGE_OTHER, .amount = 6000}, PREPAY_OK},
        {{.sort = PREPAY_DISCONNECT, .day = 1}, PREPAY_NO_WARNING},
        {{.sort = PREPAY_WARN, .day = 1}, PREPAY_OK},
        {{.sort = PREPAY_DISCONNECT, .day = 2}, PREPAY_DAY_BARRED},
    };
    expect(PREPAY_VERSION == 4 && prepay_version() == PREPAY_VERSION, "the version");
    expect(PREPAY_ACCOUNT_SIZE == 8464 && sizeof(prepay_account) == PREPAY_ACCOUNT_SIZE, "the size of an account");
    expect(PREPAY_PRICE_CELLS == 1 + 16, "document 02: day 0's price, and those of sixteen days after it");
    expect(PREPAY_PAGE_ROOM == 73 * (6 + 128), "document 02: lines of 72 columns and a line feed, six and one for each payment");
    prepay_account account;
    memset(&account, 0, sizeof account);
    expect(prepay_post(&account, &posts[0].event).code == PREPAY_NO_ACCOUNT, "zeros are no account");
    expect(prepay_open(&account, &terms) == PREPAY_OK, "prepay_open answers 0");
    for (size_t i = 0; i < sizeof posts / sizeof posts[0]; i++)
        if (prepay_post(&account, &posts[i].event).code != posts[i].code) {
            printf("WRONG: the name of the code of event %zu\n", i);
            wrong = 1;
        }
    prepay_reading r = prepay_readings(&account);
    expect(r.balance < 0 && r.settled < 0, "a sum below 0 is below 0");
    expect(account.marks[1] == (1 << (PREPAY_MARK_WEATHER - 1) | 1 << (PREPAY_MARK_PAYMENT_DOWN - 1) | 1 << (PREPAY_MARK_PLEDGE - 1)), "the marks of a day");
    const prepay_event pay = {.sort = PREPAY_PAY, .day = 2, .amount = 1}, credit = {.sort = PREPAY_CREDIT, .day = 2, .amount = 1};
    for (int n = 0; n < PREPAY_MAX_PAYMENTS; n++)
        expect(prepay_post(&account, &pay).code == PREPAY_OK, "PREPAY_MAX_PAYMENTS payments are accepted");
    expect(prepay_post(&account, &pay).code == PREPAY_PAYMENTS_FULL, "and no more");
    while (account.totals.events < PREPAY_MAX_EVENTS && prepay_post(&account, &credit).code == PREPAY_OK) {}
    expect(account.totals.events == PREPAY_MAX_EVENTS, "PREPAY_MAX_EVENTS events are accepted");
    expect(prepay_post(&account, &credit).code == PREPAY_EVENTS_FULL, "and no more");
    uint8_t code;
    expect(prepay_row(&account, &pay, 1, &code, 0) == PREPAY_SHORT_BUFFER, "a row longer than its buffer");
    prepay_reader reader;
    prepay_terms unread;
    expect(prepay_read_terms((const uint8_t *)"x\n", 2, &reader, &unread) == PREPAY_BAD_TEXT, "a malformed text");
    expect(PREPAY_CHARGE_DELIVERY == 1 && PREPAY_CHARGE_TAX == 2 && PREPAY_CHARGE_RECONNECTION == 3 && PREPAY_CHARGE_RETURNED_PAYMENT == 4
               && PREPAY_CHARGE_OTHER == 5, "document 01: 1 delivery utility charge, 2 tax, 3 reconnection fee, 4 returned payment fee, 5 other");
    expect(PREPAY_MARK_WEATHER == 1 && PREPAY_MARK_PAYMENT_DOWN == 2 && PREPAY_MARK_PLEDGE == 3,
           "document 01: 1 extreme weather emergency, 2 payment means down, 3 confirmed assistance pledge");
}

/* Document 02, T-01: a price's limits, its cell, the usage days that it counts for, and how many days may have one. */
static void prices(void) {
    static const struct {
        prepay_event event;
        uint64_t code, value;
    } posts[] = {
        {{.sort = PREPAY_PRICE, .day = 5, .amount = 0}, PREPAY_BAD_FIELD, 0},
        {{.sort = PREPAY_PRICE, .day = 5, .amount = 100000}, PREPAY_BAD_FIELD, 0},
        {{.sort = PREPAY_PRICE, .day = 5, .amount = 2500}, PREPAY_OK, 0},
        {{.sort = PREPAY_ESTIMATE, .day = 6, .usage = 4, .wh = 30000}, PREPAY_OK, 375},
        {{.sort = PREPAY_ESTIMATE, .day = 6, .usage = 5, .wh = 30000}, PREPAY_OK, 750},
        {{.sort = PREPAY_READ, .day = 6, .usage = 4, .wh = 30000}, PREPAY_OK, 375},
        {{.sort = PREPAY_READ, .day = 6, .usage = 5, .wh = 30000}, PREPAY_OK, 750},
    };
    enum { POSTS = sizeof posts / sizeof posts[0], LATER = PREPAY_PRICE_CELLS - 1 };
    prepay_account account, before;
    expect(prepay_open(&account, &terms) == PREPAY_OK, "prepay_open answers 0");
    for (size_t i = 0; i < POSTS; i++) {
        prepay_answer answer = prepay_post(&account, &posts[i].event);
        if (answer.code != posts[i].code || answer.value != posts[i].value) {
            printf("WRONG: the answer to event %zu of the prices\n", i);
            wrong = 1;
        }
    }
    /* Day 5, then days 6 to 20: the sixteen later days. */
    prepay_price cells[PREPAY_PRICE_CELLS] = {{.day = 0, .price = 1250}, {.day = 5, .price = 2500}};
    for (uint32_t i = 2; i <= LATER; i++) {
        const prepay_event next = {.sort = PREPAY_PRICE, .day = 4 + i, .amount = 2500 + i};
        expect(prepay_post(&account, &next).code == PREPAY_OK, "prices of sixteen later days are accepted");
        cells[i] = (prepay_price){.day = next.day, .price = next.amount};
    }
    expect(memcmp(account.prices, cells, sizeof cells) == 0, "the cells of the prices");
    const prepay_event other = {.sort = PREPAY_PRICE, .day = 21, .amount = 1}, again = {.sort = PREPAY_PRICE, .day = 20, .amount = 99999};
    before = account;
    expect(prepay_post(&account, &other).code == PREPAY_PRICES_FULL, "a seventeenth is not");
    expect(memcmp(&account, &before, sizeof account) == 0, "and changes no byte");
    expect(prepay_post(&account, &again).code == PREPAY_OK, "the sixteenth again is");
    cells[LATER].price = again.amount;
    expect(memcmp(account.prices, cells, sizeof cells) == 0, "and replaces its first price");

    /* Day 0: in the place of the opening price. */
    expect(prepay_open(&account, &terms) == PREPAY_OK, "prepay_open answers 0");
    before = account;
    for (uint32_t amount = 1; amount <= 2; amount++) {
        const prepay_event opening_day = {.sort = PREPAY_PRICE, .day = 0, .amount = amount};
        expect(prepay_post(&account, &opening_day).code == PREPAY_OK, "a price on day 0 is accepted");
        before.prices[0].price = amount;
        before.totals.events++;
        expect(memcmp(&account, &before, sizeof account) == 0, "it writes its cell and counts as an event");
    }
}

/* The page that is wanted, line by line: a label from column 1, a figure that ends in column 72. */
static char wanted[PREPAY_PAGE_ROOM + 1];
static size_t wanted_len;

static void line(const char *label, const char *figure) {
    wanted_len += (size_t)snprintf(wanted + wanted_len, sizeof wanted - wanted_len, "%-58s%14s\n", label, figure);
}

/* What is answered for a page in buffers of these lengths; where it is 0, the wanted page stands in the buffer, and all else is as it was. */
static void answered(const prepay_account *account, uint32_t month, uint64_t code, const size_t *rooms, size_t count, const char *what) {
    enum { BEFORE = 64 };
    static uint8_t out[BEFORE + PREPAY_PAGE_ROOM + 256];
    const prepay_account before = *account;
    size_t length = code == PREPAY_OK ? wanted_len : 0;
    for (size_t r = 0; r < count; r++) {
        memset(out, 0xA5, sizeof out);
        prepay_answer answer = prepay_page(account, month, out + BEFORE, rooms[r]);
        expect(answer.code == code && answer.value == length, what);
        expect(memcmp(out + BEFORE, wanted, length) == 0, what);
        for (size_t i = 0; i < sizeof out; i++)
            expect((i >= BEFORE && i < BEFORE + length) || out[i] == 0xA5, "prepay_page writes the page's bytes alone");
    }
    expect(memcmp(account, &before, sizeof before) == 0, "prepay_page leaves the account as it is");
}

/* The wanted page is laid into a buffer of exactly its length and into longer ones; shorter ones are 16. */
static void page_is(const prepay_account *account, uint32_t month, const char *what) {
    const size_t long_enough[] = {wanted_len, wanted_len + 1, PREPAY_PAGE_ROOM, PREPAY_PAGE_ROOM + 100};
    const size_t too_short[] = {wanted_len - 1, wanted_len - 73, 73, 1, 0};
    answered(account, month, PREPAY_OK, long_enough, sizeof long_enough / sizeof *long_enough, what);
    answered(account, month, PREPAY_SHORT_BUFFER, too_short, sizeof too_short / sizeof *too_short, "a buffer shorter than the page is 16");
    expect(prepay_summary(account, month).code == PREPAY_OK, "a month that has a page has figures");
    wanted_len = 0;
}

/* A month without a page, whatever the buffer. */
static void no_page(const prepay_account *account, uint32_t month, uint64_t code, const char *what) {
    static const size_t rooms[] = {PREPAY_PAGE_ROOM, 438, 437, 0};
    answered(account, month, code, rooms, sizeof rooms / sizeof *rooms, what);
    expect(prepay_summary(account, month).code == code, what);
}

/* A page without payments, energy or charges but for what is named. */
static void plain(const char *month, const char *kind, const char *sum, const char *usage, const char *average) {
    line(month, "");
    line(usage, "0.00");
    for (const char *const *k = (const char *const[]){"Kind 3", "Kind 4", "Kind 5", NULL}; *k; k++)
        line(*k, strcmp(*k, kind) == 0 ? sum : "0.00");
    line("Average", average);
}

/* Document 02, T-02. */
static void pages(void) {
    const uint64_t most = UINT64_C(1) << 40; /* of a sum of charges */
    prepay_account account;

    /* The account of the events above: payments 2 and 3 are reversed. */
    line("Month 2024-03", "");
    line("Paid 2024-03-18", "60.01");
    line("Paid 2024-03-20", "30.01");
    line("Paid 2024-03-21", "900.11");
    line("Usage 63111 Wh", "11.79");
    line("Kind 3", "0.37");
    line("Kind 4", "0.41");
    line("Kind 5", "0.59");
    line("Average", "209.30");
    page_is(&one.account, 0, "the page of month 0");
    plain("Month 2024-04", "", "", "Usage 0 Wh", "");
    page_is(&one.account, 1, "a month without energy, though it has a charge of kind 1");
    plain("Month 2025-01", "", "", "Usage 0 Wh", "");
    page_is(&one.account, 10, "a month of the next year");
    plain("Month 2025-04", "", "", "Usage 0 Wh", "");
    page_is(&one.account, 13, "the last month");
    no_page(&one.account, 14, PREPAY_BAD_FIELD, "month 14 without days is 3");
    no_page(&one.account, 15, PREPAY_BAD_FIELD, "month 15 is 3");
    no_page(&one.account, UINT32_MAX, PREPAY_BAD_FIELD, "a month past all is 3");
    memset(&account, 0, sizeof account);
    no_page(&account, 0, PREPAY_NO_ACCOUNT, "zeros are no account");
    no_page(&account, 15, PREPAY_NO_ACCOUNT, "before any month is looked at");

    /* Month 14: of an account opened on 2024-01-27 it has day 399 alone, of one opened a day earlier none. */
    prepay_terms late = terms;
    const prepay_event last = {.sort = PREPAY_PAY, .day = 399, .amount = 10000000};
    late.month = 1, late.day = 27;
    expect(prepay_open(&account, &late) == PREPAY_OK && prepay_post(&account, &last).code == PREPAY_OK, "a payment on the last day");
    line("Month 2025-03", "");
    line("Paid 2025-03-01", "100000.00");
    line("Usage 0 Wh", "0.00");
    line("Kind 3", "0.00");
    line("Kind 4", "0.00");
    line("Kind 5", "0.00");
    line("Average", "");
    page_is(&account, 14, "month 14 with a day");
    account.charges[5 * 14] = most + 1;
    no_page(&account, 14, PREPAY_NO_ACCOUNT, "month 14 with a day and a sum that no account has is 1");
    late.day = 26;
    expect(prepay_open(&account, &late) == PREPAY_OK && prepay_post(&account, &last).code == PREPAY_OK, "a payment on the last day");
    no_page(&account, 14, PREPAY_BAD_FIELD, "month 14 without days is 3");

    /* The sums of charges, by kind, at 2^40 and above it. */
    static const char *const kinds[] = {"Kind 1", "Kind 2", "Kind 3", "Kind 4", "Kind 5"};
    for (uint32_t kind = 0; kind < PREPAY_CHARGE_KINDS; kind++) {
        expect(prepay_open(&account, &terms) == PREPAY_OK, "prepay_open answers 0");
        account.charges[5 * 2 + kind] = most;
        plain("Month 2024-05", kinds[kind], "10995116277.76", "Usage 0 Wh", "");
        page_is(&account, 2, "a sum of 2^40 has a page");
        account.charges[5 * 2 + kind] = account.charges[5 * 14 + kind] = most + 1;
        no_page(&account, 2, PREPAY_NO_ACCOUNT, "a sum above 2^40, of any kind, is 1");
        no_page(&account, 14, PREPAY_BAD_FIELD, "but 3 in a month without days");
        plain("Month 2024-06", "", "", "Usage 0 Wh", "");
        page_is(&account, 3, "and nothing in another month");
    }

    /* The widest average, and a wider one. */
    expect(prepay_open(&account, &terms) == PREPAY_OK, "prepay_open answers 0");
    account.days[0] = (prepay_day){.state = 2, .wh = 20000, .cost = 0};
    account.charges[0] = most;
    account.charges[1] = UINT64_C(2000000000000) - most - 1;
    plain("Month 2024-03", "", "", "Usage 20000 Wh", "99999999999.95");
    page_is(&account, 0, "an average of 14 columns");
    account.charges[1]++;
    plain("Month 2024-03", "", "", "Usage 20000 Wh", "");
    page_is(&account, 0, "an average of 15 columns is spaces");

    /* PREPAY_MAX_PAYMENTS payments of one month; then one of them is reversed. */
    char date[16], amount[16];
    expect(prepay_open(&account, &terms) == PREPAY_OK, "prepay_open answers 0");
    for (uint32_t n = 0; n < PREPAY_MAX_PAYMENTS; n++) {
        const prepay_event pay = {.sort = PREPAY_PAY, .day = n / 10, .amount = 5 + 77777 * n};
        expect(prepay_post(&account, &pay).code == PREPAY_OK, "a payment is accepted");
    }
    for (int reversed = 0; reversed <= 1; reversed++) {
        const prepay_event reverse = {.sort = PREPAY_REVERSE, .day = 20, .number = 77};
        if (reversed)
            expect(prepay_post(&account, &reverse).code == PREPAY_OK, "its reversal is accepted");
        line("Month 2024-03", "");
        for (uint32_t n = 0; n < PREPAY_MAX_PAYMENTS; n++) {
            snprintf(date, sizeof date, "Paid 2024-03-%02u", 18 + n / 10);
            snprintf(amount, sizeof amount, "%u.%02u", (5 + 77777 * n) / 100, (5 + 77777 * n) % 100);
            if (!reversed || n != 77)
                line(date, amount);
        }
        line("Usage 0 Wh", "0.00");
        line("Kind 3", "0.00");
        line("Kind 4", "0.00");
        line("Kind 5", "0.00");
        line("Average", "");
        expect(wanted_len == PREPAY_PAGE_ROOM - (reversed ? 73 : 0), "the longest page fills PREPAY_PAGE_ROOM");
        page_is(&account, 0, "payments of one month, by number");
    }
}

int main(int argc, char **argv) {
    if (argc == 2 && strcmp(argv[1], "print") == 0) {
        print();
        return 0;
    }
    write_text();
    opening();
    figures();
    account_fields();
    pages();
    rows();
    reading();
    names();
    prices();
    puts(wrong ? "layout: WRONG" : "layout: as head.h has it");
    return wrong;
}
