/* The account of a prepay meter head from C, by each call of include/head.h.
 *
 * `example` posts document 01's worked example singly and in rows, prints a month's figures and its page and posts a new price; run.sh holds
 * it to example.out.
 * `example FILE` reads and posts the event text of a file event by event, as firmware does, and prints what the programs `prepay`, `summary`
 * and `page`, of each month, print for it; then the same by the calls that print a whole text. run.sh holds it to the programs.
 */
#include <inttypes.h>
#include <stdio.h>
#include <string.h>

#include "head.h"

/* What this program was written for, and its memory laid out for. */
_Static_assert(PREPAY_VERSION == 4, "another head.h");
_Static_assert(sizeof(prepay_account) == PREPAY_ACCOUNT_SIZE && PREPAY_ACCOUNT_SIZE == 8464, "8,464 bytes are kept for the account");
_Static_assert(_Alignof(prepay_account) == PREPAY_ACCOUNT_ALIGN && PREPAY_ACCOUNT_ALIGN == 8, "they are aligned to 8");

/* The account, in the caller's memory. */
static prepay_account account;

/* The opening terms. Day 0 is Monday, 2024-01-01. */
static const prepay_terms terms = {
    .year = 2024, .month = 1, .day = 1, .price = 1250, .connect = 5000, .cutoff = 1000, .share = 50,
};

/* The events, each with the fields that its sort names. */
static const prepay_event events[] = {
    {.sort = PREPAY_PAY, .day = 0, .amount = 6000},
    {.sort = PREPAY_CONNECT, .day = 0},
    {.sort = PREPAY_ESTIMATE, .day = 2, .usage = 1, .wh = 30000},
    {.sort = PREPAY_READ, .day = 3, .usage = 1, .wh = 32000},
    {.sort = PREPAY_WARN, .day = 3},
    {.sort = PREPAY_CHARGE, .day = 3, .kind = PREPAY_CHARGE_DELIVERY, .amount = 4700},
    {.sort = PREPAY_DISCONNECT, .day = 3}, /* PREPAY_NO_WARNING: warned today only */
    {.sort = PREPAY_DISCONNECT, .day = 4},
    {.sort = PREPAY_PAY, .day = 5, .amount = 4000},
    {.sort = PREPAY_CONNECT, .day = 5}, /* PREPAY_BAD_BALANCE: below the connection balance */
};
enum { EVENTS = sizeof events / sizeof events[0] };

/* A new price, in hundredths of a cent, goes in `.amount`; it is in force for usage days from its own day on (document 02, T-01). */
static const prepay_event priced[] = {
    {.sort = PREPAY_PRICE, .day = 5, .amount = 2500},
    {.sort = PREPAY_READ, .day = 6, .usage = 4, .wh = 30000}, /* 375 cents, at the opening price */
    {.sort = PREPAY_READ, .day = 6, .usage = 5, .wh = 30000}, /* 750 */
};

static int wrong;

static void expect(int held, const char *what) {
    if (!held) {
        printf("WRONG: %s\n", what);
        wrong = 1;
    }
}

static int same_account(const prepay_account *a, const prepay_account *b) { return memcmp(a, b, sizeof *a) == 0; }

static void print_answer(unsigned n, prepay_answer answer) {
    prepay_reading now = prepay_readings(&account);
    printf("n=%u code=%" PRIu64 " value=%" PRIu64 " balance=%" PRId64 " plan=%" PRIu64 "\n", n, answer.code, answer.value, now.balance,
           now.plan);
}

static void print_last(void) {
    prepay_reading now = prepay_readings(&account);
    printf("settled=%" PRId64 " estimates=%" PRIu64 "\n", now.settled, now.estimates);
}

static void print_refused(uint8_t code) { printf("n=0 code=%u value=0 balance=0 plan=0\n", (unsigned)code); }

/* Opens, posts one by one, and reads after each. */
static void single_posts(uint8_t *codes) {
    expect(prepay_open(&account, &terms) == PREPAY_OK, "the terms are within their limits");
    for (unsigned i = 0; i < EVENTS; i++) {
        prepay_account before = account;
        prepay_answer answer = prepay_post(&account, &events[i]);
        print_answer(i + 1, answer);
        expect(answer.code == PREPAY_OK || same_account(&account, &before), "a refused event changes no byte");
        codes[i] = (uint8_t)answer.code;
    }
    print_last();
}

/* The same events in rows; `singly` and `codes` are what the single posts left. */
static void rows(const prepay_account *singly, const uint8_t *codes) {
    static const size_t lengths[] = {1, 0, 2, 3, 4};
    uint8_t bytes[EVENTS + 6];
    size_t at = 0;

    expect(prepay_open(&account, &terms) == PREPAY_OK, "the terms are within their limits");
    for (size_t r = 0; r < sizeof lengths / sizeof lengths[0]; r++) {
        size_t count = lengths[r];
        prepay_account before = account;

        /* A buffer one byte too short: nothing posted, nothing written. */
        memset(bytes, 0xEE, sizeof bytes);
        if (count > 0)
            expect(prepay_row(&account, events + at, count, bytes, count - 1) == PREPAY_SHORT_BUFFER, "a short buffer is 16");
        expect(same_account(&account, &before), "a short buffer posts nothing");
        for (size_t i = 0; i < sizeof bytes; i++)
            expect(bytes[i] == 0xEE, "a short buffer is not written");

        /* A buffer longer than the row: the bytes past the row stay. */
        expect(prepay_row(&account, events + at, count, bytes, sizeof bytes) == PREPAY_OK, "a row that fits is 0");
        printf("row of %zu: codes", count);
        for (size_t i = 0; i < count; i++)
            printf(" %u", (unsigned)bytes[i]);
        printf("\n");
        expect(memcmp(bytes, codes + at, count) == 0, "a row's codes are those of the single posts");
        for (size_t i = count; i < sizeof bytes; i++)
            expect(bytes[i] == 0xEE, "bytes past the row stay as they are");
        at += count;
    }
    expect(same_account(&account, singly), "the account after the rows is that after the single posts");

    /* Terms outside their limits make no account: this one stays as it is. */
    prepay_terms refused = terms;
    refused.share = 51;
    expect(prepay_open(&account, &refused) == PREPAY_NO_ACCOUNT && same_account(&account, singly), "refused terms change no byte");
}

/* The figures of a month, as `summary` prints them. */
static void print_month(uint32_t month) {
    prepay_figures f = prepay_summary(&account, month);
    printf("m=%" PRIu32 " code=%" PRIu64 " kept_count=%" PRIu64 " kept_sum=%" PRIu64 " reversed_count=%" PRIu64 " reversed_sum=%" PRIu64
           " metered_wh=%" PRIu64 " metered_cost=%" PRIu64 " estimated_wh=%" PRIu64 " estimated_cost=%" PRIu64,
           month, f.code, f.kept_count, f.kept_sum, f.reversed_count, f.reversed_sum, f.metered_wh, f.metered_cost, f.estimated_wh,
           f.estimated_cost);
    for (int kind = 1; kind <= PREPAY_CHARGE_KINDS; kind++)
        printf(" kind%d=%" PRIu64, kind, f.charges[kind - 1]);
    printf(" average=%" PRIu64 " missing=%" PRIu64 "\n", f.average, f.missing);
}

/* The page of a month, as `page` prints it. */
static void print_page(uint32_t month) {
    static uint8_t page[PREPAY_PAGE_ROOM];
    prepay_answer answer = prepay_page(&account, month, page, sizeof page);
    if (answer.code == PREPAY_OK)
        fwrite(page, 1, answer.value, stdout);
    else
        printf("code=%" PRIu64 " value=%" PRIu64 "\n", answer.code, answer.value);
}

/* Reads and posts a text event by event; prints as `prepay` does. Answers the code of the terms. */
static uint8_t event_by_event(const uint8_t *text, size_t text_len) {
    prepay_reader reader;
    prepay_terms read;
    prepay_event event;
    uint8_t code = prepay_read_terms(text, text_len, &reader, &read);
    if (code == PREPAY_OK)
        code = prepay_open(&account, &read);
    if (code != PREPAY_OK) {
        print_refused(code);
        return code;
    }
    for (unsigned n = 1; (code = prepay_read_event(text, text_len, &reader, &event)) != PREPAY_END; n++) {
        prepay_answer answer = {code, 0};
        if (code == PREPAY_OK)
            answer = prepay_post(&account, &event);
        print_answer(n, answer);
        if (code != PREPAY_OK)
            break;
    }
    print_last();
    return PREPAY_OK;
}

static void of_text(const uint8_t *text, size_t text_len) {
    static uint8_t out[PREPAY_TRANSCRIPT_ROOM];
    puts("# event by event");
    uint8_t code = event_by_event(text, text_len);
    puts("# months");
    if (code != PREPAY_OK)
        print_refused(code);
    for (uint32_t month = 0; code == PREPAY_OK && month < PREPAY_MONTHS; month++)
        print_month(month);
    puts("# pages");
    for (uint32_t month = 0; month < PREPAY_MONTHS; month++)
        if (code == PREPAY_OK)
            print_page(month);
        else
            print_refused(code);
    puts("# prepay_transcript");
    fwrite(out, 1, prepay_transcript(text, text_len, out, PREPAY_TRANSCRIPT_ROOM), stdout);
    puts("# prepay_statement");
    fwrite(out, 1, prepay_statement(text, text_len, out, PREPAY_STATEMENT_ROOM), stdout);
    expect(prepay_transcript(text, text_len, out, PREPAY_TRANSCRIPT_ROOM - 1) == 0, "a short buffer gets 0");
    expect(prepay_statement(text, text_len, out, PREPAY_STATEMENT_ROOM - 1) == 0, "a short buffer gets 0");
}

int main(int argc, char **argv) {
    if (prepay_version() != PREPAY_VERSION) {
        puts("the library is of another version than head.h");
        return 2;
    }
    if (argc == 2) {
        static uint8_t text[PREPAY_MAX_TEXT + 1];
        FILE *file = fopen(argv[1], "rb");
        if (!file)
            return 2;
        of_text(text, fread(text, 1, sizeof text, file));
        fclose(file);
        return wrong;
    }
    uint8_t codes[EVENTS];
    puts("# single posts");
    single_posts(codes);
    prepay_account singly = account;
    puts("# rows");
    rows(&singly, codes);
    puts("# month 0");
    print_month(0);
    puts("# its page");
    print_page(0);
    puts("# a new price");
    for (unsigned i = 0; i < sizeof priced / sizeof priced[0]; i++)
        print_answer(EVENTS + i + 1, prepay_post(&account, &priced[i]));
    print_last();
    puts(wrong ? "# WRONG" : "# as it should be");
    return wrong;
}
