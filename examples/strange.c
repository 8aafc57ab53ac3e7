/* Memory that no call of the library wrote, given to it as an account, as a row, as a text or as a reader: it must answer by what head.h
 * says, change nothing where it refuses, and touch nothing else. Arguments: seeds.
 *
 * What is lent lies against a page that may not be touched, so that a read or write outside it ends the program; the account once at the
 * end of its pages and once at their start. run.sh builds it with gcc's address and undefined sanitizers, where they are.
 */
#define _DEFAULT_SOURCE
#include <inttypes.h>
#include <stdio.h>
#include <stdlib.h>
#include <string.h>
#include <sys/mman.h>
#include <unistd.h>

#include "head.h"

static uint64_t state;

static uint64_t next(void) {
    uint64_t z = state += 0x9e3779b97f4a7c15u;
    z = (z ^ (z >> 30)) * 0xbf58476d1ce4e5b9u;
    z = (z ^ (z >> 27)) * 0x94d049bb133111ebu;
    return z ^ (z >> 31);
}

static uint32_t below(uint32_t n) { return (uint32_t)(next() % n); }

static void fill(void *at, size_t count) {
    for (size_t i = 0; i < count; i++)
        ((uint8_t *)at)[i] = (uint8_t)next();
}

static unsigned long wrong, no_accounts, accounts, refused, accepted, readings, pages, lines;

static void expect(int held, const char *what) {
    if (!held && wrong++ < 20)
        printf("WRONG: %s\n", what);
}

/* `count` bytes that end where their page ends, or that start where it starts; the pages around are closed. */
static void *fenced(size_t count, int at_end) {
    size_t page = (size_t)sysconf(_SC_PAGESIZE);
    size_t room = (count + page - 1) / page * page;
    uint8_t *all = mmap(NULL, room + 2 * page, PROT_NONE, MAP_PRIVATE | MAP_ANONYMOUS, -1, 0);
    if (all == MAP_FAILED || mprotect(all + page, room, PROT_READ | PROT_WRITE) != 0) {
        perror("mmap");
        exit(2);
    }
    return all + page + (at_end ? room - count : 0);
}

/* ---- accounts */

static prepay_account *a; /* the account, in closed pages */
enum { MOST = 40 };
static prepay_event *row;
static uint8_t *codes;
enum { BEFORE = 64 };
static uint8_t *page;                                /* BEFORE bytes, and a buffer for any page that ends at a closed page */
static uint8_t untouched[BEFORE + PREPAY_PAGE_ROOM]; /* what stands there before a call */

static const uint64_t MAX_TOTAL = UINT64_C(1) << 60, MAX_CHARGES = UINT64_C(1) << 40;

/* Of years 2000 to 2101. */
static uint32_t days_in(uint32_t year, uint32_t month) {
    static const uint32_t days[] = {31, 28, 31, 30, 31, 30, 31, 31, 30, 31, 30, 31};
    return days[month - 1] + (month == 2 && year % 4 == 0 && year != 2100);
}

static int within_limits(const prepay_terms *t) {
    return t->year >= 2000 && t->year <= 2099 && t->month >= 1 && t->month <= 12 && t->day >= 1 && t->day <= days_in(t->year, t->month) &&
           t->price >= 1 && t->price <= 99999 && t->connect <= 7500 && t->cutoff <= 1000 && t->cutoff <= t->connect && t->share <= 50;
}

static int is_account(void) {
    const prepay_totals *t = &a->totals;
    return within_limits(&a->terms) && t->count <= PREPAY_MAX_PAYMENTS && t->credit <= MAX_TOTAL && t->debit <= MAX_TOTAL &&
           t->plan <= MAX_TOTAL && t->standing <= MAX_TOTAL;
}

static uint32_t any_number(void) {
    switch (below(6)) {
    case 0: return 0;
    case 1: return UINT32_MAX - below(3);
    case 2: return (uint32_t)next();
    case 3: return below(500);
    default: return below(6);
    }
}

static prepay_event any_event(uint32_t sort) {
    prepay_event e = {.sort = sort, .day = any_number(), .amount = any_number(), .number = any_number(), .kind = any_number(),
                      .usage = any_number(), .wh = any_number(), .from = any_number(), .to = any_number()};
    if (below(2))
        e.day = below(400);
    return e;
}

/* The price of a usage day, as head.h has it. */
static uint32_t price_of(const prepay_account *of, uint32_t usage) {
    uint32_t above = 0;
    while (above < PREPAY_PRICE_CELLS && of->prices[above].day <= usage)
        above++;
    return above ? of->prices[above - 1].price : of->terms.price;
}

/* The cell that a price posted on a day goes to; PREPAY_PRICE_CELLS where there is none. */
static uint32_t cell_of(const prepay_account *of, uint32_t day) {
    uint32_t cell = 0;
    while (cell < PREPAY_PRICE_CELLS && of->prices[cell].day < day)
        cell++;
    return cell;
}

/* The dates of an account's days, and how many months they are in. */
static struct {
    uint32_t year, month, day, from_opening;
} dates[PREPAY_DAYS];
static uint32_t months;

static void count_days(void) {
    uint32_t year = a->terms.year, month = a->terms.month, day = a->terms.day;
    months = 0;
    for (size_t i = 0; i < PREPAY_DAYS; i++) {
        dates[i].year = year, dates[i].month = month, dates[i].day = day, dates[i].from_opening = months;
        if (++day > days_in(year, month))
            day = 1, months++, year += month == 12, month = month % 12 + 1;
    }
    months = dates[PREPAY_DAYS - 1].from_opening + 1;
}

/* One more line of the page that is wanted: a label from column 1, a figure in hundredths that ends in column 72. */
static char wanted[PREPAY_PAGE_ROOM + 1];
static size_t wanted_len;

static void line(const char *label, uint64_t hundredths, int spaces) {
    char figure[24] = "";
    if (!spaces)
        snprintf(figure, sizeof figure, "%" PRIu64 ".%02" PRIu64, hundredths / 100, hundredths % 100);
    size_t room = sizeof wanted - wanted_len;
    expect(strlen(label) < 58 && strlen(figure) <= 14 && room > 73, "labels and figures never meet, and the page has its room");
    int put = snprintf(wanted + wanted_len, room, "%-58s%14s\n", label, figure);
    wanted_len += (size_t)put < room ? (size_t)put : room - 1;
    lines++;
}

/* The page of a month, of its figures and the payments' numbers. */
static void lay_out(uint32_t month, const prepay_figures *f) {
    char label[64];
    wanted_len = 0;
    size_t first = 0;
    while (dates[first].from_opening != month)
        first++;
    snprintf(label, sizeof label, "Month %04u-%02u", dates[first].year, dates[first].month);
    line(label, 0, 1);
    uint64_t kept = 0, sum = 0;
    for (uint32_t n = 0; n < a->totals.count; n++) {
        const prepay_payment *p = &a->payments[n];
        if (p->day < PREPAY_DAYS && dates[p->day].from_opening == month && p->reversed != 1) {
            snprintf(label, sizeof label, "Paid %04u-%02u-%02u", dates[p->day].year, dates[p->day].month, dates[p->day].day);
            line(label, p->amount, 0);
            kept++, sum += p->amount;
        }
    }
    expect(kept == f->kept_count && sum == f->kept_sum, "the page's payments are those of the figures");
    snprintf(label, sizeof label, "Usage %" PRIu64 " Wh", f->metered_wh + f->estimated_wh);
    line(label, f->metered_cost + f->estimated_cost, 0);
    line("Kind 3", f->charges[2], 0);
    line("Kind 4", f->charges[3], 0);
    line("Kind 5", f->charges[4], 0);
    line("Average", f->average, f->missing || f->average > UINT64_C(9999999999999));
}

/* Asks for a page in a buffer of `length` bytes that ends at the closed page. */
static prepay_answer paged(uint32_t month, size_t length) {
    uint8_t *out = page + BEFORE + PREPAY_PAGE_ROOM - length;
    memcpy(out - BEFORE, untouched, BEFORE + length);
    return prepay_page(a, month, out, length);
}

/* Whether of that buffer the first `written` bytes are the wanted page, and all others, before it too, as they were. */
static int is_page(size_t length, size_t written) {
    const uint8_t *out = page + BEFORE + PREPAY_PAGE_ROOM - length;
    return memcmp(out - BEFORE, untouched, BEFORE) == 0 && memcmp(out, wanted, written) == 0 &&
           memcmp(out + written, untouched, length - written) == 0;
}

/* The figures of a month, and often its page. */
static void read_month(int account, uint32_t month) {
    static const prepay_figures zeros;
    prepay_figures f = prepay_summary(a, month);
    uint64_t code = PREPAY_OK;
    if (!account)
        code = PREPAY_NO_ACCOUNT;
    else if (month >= months)
        code = PREPAY_BAD_FIELD;
    else
        for (uint32_t kind = 0; kind < PREPAY_CHARGE_KINDS; kind++)
            if (a->charges[PREPAY_CHARGE_KINDS * month + kind] > MAX_CHARGES)
                code = PREPAY_NO_ACCOUNT;
    expect(f.code == code, "a month's code");
    if (f.code != PREPAY_OK) {
        size_t length = below(32) ? below(1000) : PREPAY_PAGE_ROOM;
        prepay_answer answer = paged(month, length);
        expect(answer.code == f.code && answer.value == 0 && is_page(length, 0), "a page is refused as the figures are, and not written");
        f.code = 0;
        expect(memcmp(&f, &zeros, sizeof f) == 0, "the figures of a refused month are 0");
        return;
    }
    if (code != PREPAY_OK || below(3))
        return;
    lay_out(month, &f);
    for (int fits = 0; fits <= 1; fits++) {
        size_t length = fits ? (below(32) ? wanted_len : PREPAY_PAGE_ROOM) : below(2) ? wanted_len - 1 : below((uint32_t)wanted_len);
        size_t written = fits ? wanted_len : 0;
        prepay_answer answer = paged(month, length);
        expect(answer.code == (fits ? PREPAY_OK : PREPAY_SHORT_BUFFER) && answer.value == written, "a page's code and length");
        expect(is_page(length, written), "the page is laid out by the figures, and nothing else is written");
    }
    pages++;
}

/* Whether an event may be answered so. */
static int may_be(uint64_t code, int account, const prepay_account *was, const prepay_event *e) {
    if (!account)
        return code == PREPAY_NO_ACCOUNT;
    if (e->sort == PREPAY_ESTIMATE || e->sort == PREPAY_READ) {
        uint32_t first = e->day < was->totals.last || e->day > 399 ? PREPAY_BAD_DAY
                         : e->wh > 9999999                         ? PREPAY_BAD_FIELD
                         : was->totals.events >= 4096              ? PREPAY_EVENTS_FULL
                         : e->usage >= e->day                      ? PREPAY_USAGE_NOT_PAST
                         : price_of(was, e->usage) > 99999         ? PREPAY_NO_ACCOUNT
                                                                   : PREPAY_OK;
        return code == first || (first == PREPAY_OK && code == PREPAY_USAGE_NOT_BLANK);
    }
    if (code >= PREPAY_BAD_DAY && code <= PREPAY_EVENTS_FULL)
        return 1;
    if (e->sort == PREPAY_PRICE)
        return code == (cell_of(was, e->day) < PREPAY_PRICE_CELLS ? PREPAY_OK : PREPAY_PRICES_FULL);
    return code <= PREPAY_DAY_BARRED && (code != PREPAY_NO_ACCOUNT || e->sort == PREPAY_CHARGE);
}

/* Reads the account and posts to it. */
static void feed(void) {
    prepay_account was = *a;
    int account = is_account();
    *(account ? &accounts : &no_accounts) += 1;

    const prepay_totals *t = &a->totals;
    prepay_reading r = prepay_readings(a);
    int sums = t->credit <= MAX_TOTAL && t->debit <= MAX_TOTAL, all = sums && t->plan <= MAX_TOTAL && t->standing <= MAX_TOTAL;
    expect(r.balance == (sums ? (int64_t)(t->credit - t->debit) : 0), "the balance is credit less debit, or 0");
    expect(r.settled == (all ? (int64_t)(t->credit - t->debit - t->plan + t->standing) : 0), "the settled amount is the totals', or 0");
    expect(r.plan == t->plan && r.estimates == t->standing && r.service == (t->on == 1), "plan, estimates and service are the numbers'");
    if (account)
        count_days();
    for (uint32_t i = 0; i < 18; i++)
        read_month(account, i < 16 ? i : i == 16 ? UINT32_MAX : any_number());
    expect(memcmp(a, &was, sizeof was) == 0, "reading leaves the numbers as they are");

    for (uint32_t sort = 0; sort <= 14; sort++) {
        prepay_event e = any_event(sort <= 13 ? sort : (uint32_t)next());
        account = is_account();
        prepay_answer answer = prepay_post(a, &e);
        expect(may_be(answer.code, account, &was, &e), "an event's code");
        expect(answer.code == 0 || answer.value == 0, "a refusal has the value 0");
        expect(answer.code == 0 || memcmp(a, &was, sizeof was) == 0, "a refused event changes no byte");
        *(answer.code == 0 ? &accepted : &refused) += 1;
        if (answer.code == 0 && (e.sort == PREPAY_ESTIMATE || e.sort == PREPAY_READ))
            expect(answer.value == ((uint64_t)e.wh * price_of(&was, e.usage) + 50000) / 100000, "a cost is at the price of its usage day");
        uint32_t cell = cell_of(&was, e.day);
        if (answer.code == 0 && e.sort == PREPAY_PRICE && cell < PREPAY_PRICE_CELLS)
            was.prices[cell] = (prepay_price){e.day, e.amount};
        expect(memcmp(a->prices, was.prices, sizeof was.prices) == 0, "an accepted price writes its cell, and no other event one");
        was = *a;
    }

    /* A row that ends at a closed page, its code bytes likewise. */
    size_t count = below(MOST + 1);
    prepay_event *from = row + (MOST - count);
    uint8_t *to = codes + (MOST - count);
    for (size_t i = 0; i < count; i++)
        from[i] = any_event(below(15));
    memset(codes, 0xEE, MOST);
    if (count > 0)
        expect(prepay_row(a, from, count, to, below((uint32_t)count)) == PREPAY_SHORT_BUFFER, "a short buffer is 16");
    expect(memcmp(a, &was, sizeof was) == 0, "a short buffer leaves the numbers as they are");
    for (size_t i = 0; i < MOST; i++)
        expect(codes[i] == 0xEE, "a short buffer is not written");
    account = is_account();
    expect(prepay_row(a, from, count, to, count) == PREPAY_OK, "a row that fits is 0");
    int any = 0;
    for (size_t i = 0; i < MOST; i++)
        if (codes + i < to)
            expect(codes[i] == 0xEE, "prepay_row writes the row's bytes alone");
        else
            any |= codes[i] == 0, expect(account || codes[i] == PREPAY_NO_ACCOUNT, "1 for every event of no account's row");
    expect(any || memcmp(a, &was, sizeof was) == 0, "a row of refusals changes no byte");
}

static const prepay_terms terms = {.year = 2024, .month = 1, .day = 1, .price = 1250, .connect = 5000, .cutoff = 1000, .share = 50};

/* A good account with a history. */
static void good(void) {
    static const prepay_event history[] = {
        {.sort = PREPAY_PAY, .amount = 6000},
        {.sort = PREPAY_CONNECT},
        {.sort = PREPAY_CHARGE, .kind = 1, .amount = 12000},
        {.sort = PREPAY_PLAN, .day = 1, .kind = 2},
        {.sort = PREPAY_PAY, .day = 1, .amount = 3000},
        {.sort = PREPAY_REVERSE, .day = 1, .number = 1},
        {.sort = PREPAY_PAY, .day = 2, .amount = 1000},
        {.sort = PREPAY_PRICE, .day = 2, .amount = 2500},
        {.sort = PREPAY_ESTIMATE, .day = 3, .usage = 0, .wh = 30000},
        {.sort = PREPAY_ESTIMATE, .day = 3, .usage = 1, .wh = 31000},
        {.sort = PREPAY_READ, .day = 3, .usage = 1, .wh = 32000},
        {.sort = PREPAY_MARK, .day = 3, .kind = 2, .from = 5, .to = 6},
        {.sort = PREPAY_WARN, .day = 3},
    };
    expect(prepay_open(a, &terms) == PREPAY_OK, "the terms are good");
    for (size_t i = 0; i < sizeof history / sizeof history[0]; i++)
        expect(prepay_post(a, &history[i]).code == PREPAY_OK, "the history is accepted");
}

static void strange_accounts(void) {
    good();
    const prepay_account base = *a;
    /* Random bytes; random bytes but for the terms and what else tells an account; one byte all over. */
    for (int i = 0; i < 400; i++) {
        fill(a, sizeof *a);
        if (i % 2) {
            prepay_totals *t = &a->totals;
            a->terms = base.terms;
            t->count %= PREPAY_MAX_PAYMENTS + 1;
            t->credit &= MAX_TOTAL - 1, t->debit &= MAX_TOTAL - 1, t->plan &= MAX_TOTAL - 1, t->standing &= MAX_TOTAL - 1;
        }
        feed();
    }
    for (int byte = 0; byte < 256; byte++) {
        memset(a, byte, sizeof *a);
        feed();
    }
    /* Terms of any numbers: opened if within their limits, else every byte stays. */
    for (int i = 0; i < 200; i++) {
        union {
            prepay_terms terms;
            uint32_t numbers[7];
        } t = {terms};
        fill(a, sizeof *a);
        const prepay_account was = *a;
        t.numbers[below(7)] = any_number();
        uint8_t code = prepay_open(a, &t.terms);
        expect(code == !within_limits(&t.terms), "terms outside their limits are 1, others 0");
        expect(code ? memcmp(a, &was, sizeof was) == 0 : is_account(), "refused terms change no byte");
        feed();
    }
    /* A good account with random bytes from some place on, up to some place, or a piece of them. */
    for (int i = 0; i < 300; i++) {
        size_t from = below((uint32_t)sizeof *a), to = from + 1 + below((uint32_t)(sizeof *a - from));
        *a = base;
        fill((uint8_t *)a + (i % 3 == 0 ? 0 : from), (i % 3 == 1 ? sizeof *a : to) - (i % 3 == 0 ? 0 : from));
        feed();
    }
    /* A good account with odd prices: days in order or not, some cells or all, prices at their limit and above it; some full of events. */
    for (int i = 0; i < 1000; i++) {
        *a = base;
        if (below(8) == 0)
            a->totals.events = 4096 - below(2);
        uint32_t step = 1 + below(24);
        for (uint32_t k = 0; k < PREPAY_PRICE_CELLS; k++)
            if (i % 2 || below(2))
                a->prices[k] = (prepay_price){i % 4 < 2 ? step * k + below(step) : any_number(), below(2) ? 99999 + below(2) : any_number()};
        feed();
    }
    /* A good account with any opening date, payments and usage days, and charges up to their limit, seldom one above it. */
    for (int i = 0; i < 500; i++) {
        *a = base;
        a->terms.year = 2000 + below(100), a->terms.month = 1 + below(12), a->terms.day = 1 + below(28);
        a->totals.count = below(4) ? below(PREPAY_MAX_PAYMENTS + 1) : PREPAY_MAX_PAYMENTS;
        uint32_t within = below(3) ? 1 + below(PREPAY_DAYS) : 28;
        for (uint32_t n = 0; n < PREPAY_MAX_PAYMENTS; n++)
            a->payments[n] = (prepay_payment){below(within), any_number(), any_number(), below(4) ? 0 : below(3)};
        for (uint32_t n = 0; n < PREPAY_MONTHS * PREPAY_CHARGE_KINDS; n++)
            a->charges[n] = below(4) == 0 ? 0 : below(2) ? below(10000000) : MAX_CHARGES - (below(2) ? below(3) : next() % MAX_CHARGES);
        if (below(4) == 0)
            a->charges[below(PREPAY_MONTHS * PREPAY_CHARGE_KINDS)] = MAX_CHARGES + below(3);
        for (uint32_t d = 0; d < PREPAY_DAYS; d++)
            a->days[d] = (prepay_day){below(within) < 10 ? below(4) : 0, below(2) ? below(3) : any_number(), any_number()};
        feed();
    }
    /* A good account with one number replaced, by width in turn, totals, terms and prices more; wide ones at 2^60, at 2^40 and above them. */
    for (int i = 0; i < 3000; i++) {
        *a = base;
        uint8_t *bytes = (uint8_t *)a;
        enum { WIDE = offsetof(prepay_account, terms) / 8, NARROW = (offsetof(prepay_account, marks) - offsetof(prepay_account, terms)) / 4 };
        uint64_t wide = below(2) ? (below(2) ? MAX_TOTAL : MAX_CHARGES) + below(2) : (uint64_t)any_number() << (below(2) * 32);
        uint32_t narrow = any_number();
        if (i % 3 == 0)
            memcpy(bytes + 8 * below(below(2) ? 4 : WIDE), &wide, sizeof wide);
        else if (i % 3 == 1)
            memcpy(bytes + (below(4) ? offsetof(prepay_account, terms) + 4 * below(below(2) ? 80 : NARROW) : 32 + 4 * below(4)), &narrow,
                   sizeof narrow);
        else
            (below(2) ? a->marks : a->warned)[below(PREPAY_DAYS)] = (uint8_t)next();
        feed();
    }
    /* One bit at a time. */
    for (int i = 0; i < 3000; i++) {
        size_t bit = below((uint32_t)sizeof *a * 8);
        *a = base;
        ((uint8_t *)a)[bit / 8] ^= (uint8_t)(1u << (bit % 8));
        feed();
    }
}

/* ---- texts and readers */

static void strange_readers(prepay_reader *reader, prepay_terms *read_terms, prepay_event *event) {
    static const char base[] = "open=2024-01-01\nprice=1250\nconnect=5000\ncutoff=1000\nshare=50\nday=0\ndo=pay\namount=6000\n"
                               "day=3\ndo=mark\nkind=1\nfrom=4\nto=5\nday=4\ndo=estimate\nusage=1\nwh=30000\n"
                               "day=4\ndo=price\nprice=2500\nday=4\ndo=warn\n";
    enum { LENGTH = sizeof base - 1 };
    uint8_t *text = fenced(LENGTH, 1);
    for (int i = 0; i < 3000; i++) {
        /* A text cut off, or with wrong bytes, that ends at a closed page. */
        size_t length = i % 2 ? LENGTH : below(LENGTH + 1);
        uint8_t *from = text + (LENGTH - length);
        memcpy(from, base, length);
        for (uint32_t k = below(3); length > 0 && k > 0; k--)
            from[below((uint32_t)length)] = below(2) ? (uint8_t)next() : (uint8_t)"\n=0-9"[below(5)];
        fill(read_terms, sizeof *read_terms);
        const prepay_terms terms_were = *read_terms;
        uint8_t code = prepay_read_terms(from, length, reader, read_terms);
        expect(reader->code == code && (code == PREPAY_OK || (code == PREPAY_BAD_TEXT && reader->place == 0)), "the reader after the terms");
        expect(code == PREPAY_OK || memcmp(read_terms, &terms_were, sizeof terms_were) == 0, "malformed terms are left as they were");
        /* To its end; then from any place with any code. */
        for (int step = 0; step < 13; step++) {
            if (step >= 7)
                *reader = (prepay_reader){below(3) ? below(LENGTH + 3) : any_number(), below(2) ? 0 : any_number()};
            const prepay_reader was = *reader;
            fill(event, sizeof *event);
            const prepay_event event_was = *event;
            code = prepay_read_event(from, length, reader, event);
            readings++;
            if (was.code != 0)
                expect(code == (was.code == PREPAY_END ? PREPAY_END : PREPAY_BAD_TEXT) && reader->place == was.place && reader->code == was.code,
                       "a reader that holds a code answers the end or 15, and stays");
            else if (code == PREPAY_OK)
                expect(was.place < reader->place && reader->place <= length && reader->code == 0 && event->sort >= 1 && event->sort <= 12,
                       "an event was read");
            else
                expect(code == (was.place == length ? PREPAY_END : PREPAY_BAD_TEXT) && reader->place == was.place && reader->code == code,
                       "the end or 15, and the reader holds it");
            expect(code == PREPAY_OK || memcmp(event, &event_was, sizeof event_was) == 0, "the event is left as it was");
        }
    }
}

int main(int argc, char **argv) {
    memset(untouched, 0xEE, sizeof untouched);
    for (int i = 1; i < argc; i++) {
        for (int at_end = 0; at_end <= 1; at_end++) {
            state = strtoull(argv[i], NULL, 10) * 2 + (uint64_t)at_end;
            a = fenced(sizeof *a, at_end);
            row = fenced(MOST * sizeof *row, 1);
            codes = fenced(MOST, 1);
            page = fenced(BEFORE + PREPAY_PAGE_ROOM, 1);
            strange_accounts();
            strange_readers(fenced(sizeof(prepay_reader), at_end), fenced(sizeof(prepay_terms), at_end), fenced(sizeof(prepay_event), at_end));
        }
    }
    printf("strange memory: an account %lu times, none %lu times; events accepted %lu, refused %lu; pages %lu of %lu lines; events read %lu: "
           "%s\n",
           accounts, no_accounts, accepted, refused, pages, lines, readings, wrong ? "WRONG" : "as head.h has it");
    return wrong != 0;
}
