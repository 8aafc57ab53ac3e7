/* stack ROW TEXT: the deepest stack of each call of libhead.a, the room for its answer included, on good numbers and on damaged ones. Each
 * call runs on a stack of its own (makecontext), filled with a pattern before; the deepest word that changed tells. ROW: events as numbers,
 * from `measure row`; TEXT: an event text. Neither has a price: every 64th event of the row becomes one, and a short text has one. */
#define _GNU_SOURCE
#include "head.h"
#include <stdio.h>
#include <stdlib.h>
#include <string.h>
#include <ucontext.h>

enum { STACK = 1 << 18, DAMAGED = 300 };
static const uint64_t PATTERN = 0xa5a5a5a5a5a5a5a5;

static uint64_t stack[STACK / sizeof(uint64_t)];
static ucontext_t here, there;
static uint8_t *top; /* where the stack stood before the call */

static prepay_account account, other;
static prepay_event row[PREPAY_MAX_EVENTS], event;
static prepay_terms terms = {2024, 1, 1, 1250, 5000, 1000, 50}, terms_read;
static prepay_reader reader;
static const char priced[] = "open=2024-01-01\nprice=1250\nconnect=5000\ncutoff=1000\nshare=50\nday=0\ndo=price\nprice=2500\n";
static size_t events, text_len, page_room;
static uint32_t month;
static uint8_t codes[PREPAY_MAX_EVENTS], text[PREPAY_MAX_TEXT + 1], out[PREPAY_TRANSCRIPT_ROOM];
static volatile uint64_t sink;

static void nothing(void) {}
static void open_(void) { sink = prepay_open(&other, &terms); }
static void post(void) { sink = prepay_post(&account, &event).code; }
static void whole_row(void) { sink = prepay_row(&account, row, events, codes, sizeof codes); }
static void readings(void) { sink = (uint64_t)prepay_readings(&account).balance; }
static void summary(void) { sink = prepay_summary(&account, month).average; }
static void page(void) { sink = prepay_page(&account, month, out, page_room).value; }
static void read_terms(void) { sink = prepay_read_terms(text, text_len, &reader, &terms_read); }
static void read_event(void) { sink = prepay_read_event(text, text_len, &reader, &event); }
static void transcript(void) { sink = prepay_transcript(text, text_len, out, sizeof out); }
static void statement(void) { sink = prepay_statement(text, text_len, out, sizeof out); }

static void (*called)(void);

static __attribute__((noinline)) void trampoline(void) {
    top = __builtin_frame_address(0);
    called();
}

static size_t depth(void (*f)(void)) {
    size_t i = 0;
    while (i < STACK / sizeof *stack)
        stack[i++] = PATTERN;
    called = f;
    getcontext(&there);
    there.uc_stack.ss_sp = stack;
    there.uc_stack.ss_size = STACK;
    there.uc_link = &here;
    makecontext(&there, trampoline, 0);
    swapcontext(&here, &there);
    for (i = 0; stack[i] == PATTERN; i++) {}
    if (i == 0)
        exit(3); /* too small a stack for this program */
    return (size_t)(top - (uint8_t *)&stack[i]);
}

/* The calls, and the greatest depth of each: on good numbers, on damaged ones. */
static struct {
    const char *name;
    void (*call)(void);
    size_t most[2];
} calls[] = {
    {"prepay_open", open_, {0}},
    {"prepay_post", post, {0}},
    {"prepay_row", whole_row, {0}},
    {"prepay_readings", readings, {0}},
    {"prepay_summary", summary, {0}},
    {"prepay_page", page, {0}},
    {"prepay_read_terms", read_terms, {0}},
    {"prepay_read_event", read_event, {0}},
    {"prepay_transcript", transcript, {0}},
    {"prepay_statement", statement, {0}},
};
enum { CALLS = sizeof calls / sizeof calls[0], LIMITED = 6, LIMIT = 2048 };

static void measure(void (*f)(void), int damaged) {
    for (int i = 0; i < CALLS; i++)
        if (calls[i].call == f) {
            size_t d = depth(f);
            if (d > calls[i].most[damaged])
                calls[i].most[damaged] = d;
        }
}

static void measure_readings(int damaged) {
    measure(readings, damaged);
    for (month = 0; month <= PREPAY_MONTHS; month++) {
        measure(summary, damaged);
        for (page_room = 0; page_room <= PREPAY_PAGE_ROOM; page_room += PREPAY_PAGE_ROOM)
            measure(page, damaged);
    }
}

static void measure_text(int damaged) {
    measure(read_terms, damaged);
    do
        measure(read_event, damaged);
    while (reader.code == 0);
    measure(transcript, damaged);
    measure(statement, damaged);
}

int main(int argc, char **argv) {
    if (argc != 3) return 2;
    FILE *f = fopen(argv[1], "r");
    if (!f) return 2;
    for (prepay_event *e = row; events < PREPAY_MAX_EVENTS; events++, e++)
        if (fscanf(f, "%u %u %u %u %u %u %u %u %u", &e->sort, &e->day, &e->amount, &e->number, &e->kind, &e->usage, &e->wh, &e->from, &e->to) != 9)
            break;
    fclose(f);
    for (uint32_t i = 0; i < events; i += 64) {
        row[i].sort = PREPAY_PRICE;
        row[i].amount = 1 + 20 * i;
    }
    text_len = sizeof priced - 1;
    memcpy(text, priced, text_len);
    measure_text(0);
    f = fopen(argv[2], "r");
    if (!f) return 2;
    text_len = fread(text, 1, sizeof text, f);
    fclose(f);

    measure(open_, 0);
    account = other;
    measure(whole_row, 0);
    measure_readings(0);
    prepay_account after = account;
    account = other;
    for (size_t i = 0; i < events; i++) {
        event = row[i];
        measure(post, 0);
    }
    measure_text(0);

    /* Damaged: random numbers; random numbers but for the terms, the payments' count, the totals and the prices; some numbers; some bits.
     * The prices of all but the first: days in order, the last cells free or not, but for some; prices at their limit and above it. */
    srandom(1);
    for (int i = 0; i < DAMAGED; i++) {
        prepay_account damaged = after;
        uint8_t *bytes = (uint8_t *)&damaged;
        for (size_t k = 0; k < sizeof damaged; k++)
            if (i % 4 < 2 || random() % 100 == 0)
                bytes[k] = i % 4 == 3 ? bytes[k] ^ (uint8_t)(1 << random() % 8) : (uint8_t)random();
        if (i % 4 > 0) {
            damaged.terms = after.terms;
            damaged.totals = after.totals;
            damaged.totals.events = damaged.totals.last = 0; /* so that some are accepted */
            uint32_t step = 1 + (uint32_t)random() % 48;
            for (uint32_t k = 0; k < PREPAY_PRICE_CELLS; k++)
                damaged.prices[k] = (prepay_price){random() % 8 ? step * k : (uint32_t)random(), 99990 + (uint32_t)random() % 12};
        }
        account = damaged;
        measure_readings(1);
        for (size_t k = 0; k < 64; k++) {
            event = row[(size_t)random() % events];
            measure(post, 1);
        }
        account = damaged;
        measure(whole_row, 1);
        terms.share = (uint32_t)random() % 60;
        measure(open_, 1);
    }
    size_t whole = text_len;
    for (int i = 0; i < 30; i++) {
        text_len = i % 2 ? whole : (size_t)random() % whole;
        text[(size_t)random() % whole] = (uint8_t)random();
        measure_text(1);
        reader = (prepay_reader){(uint32_t)random() % (uint32_t)whole, 0};
        measure(read_event, 1);
    }

    size_t base = depth(nothing);
    printf("Deepest stack in bytes, the room for the answer included: a row of %zu events, each of them singly, a text of %zu bytes; then %d damaged "
           "accounts and 30 damaged texts.\n\n",
           events, whole, DAMAGED);
    printf("| call | good numbers | damaged |\n|---|---|---|\n");
    int above = 0;
    for (int i = 0; i < CALLS; i++) {
        size_t good = calls[i].most[0] - base, damaged = calls[i].most[1] - base;
        printf("| %s | %zu | %zu |\n", calls[i].name, good, damaged);
        above |= i < LIMITED && (good > LIMIT || damaged > LIMIT);
    }
    printf("\nAim: at most %d for each of the first %d: %s.\n", LIMIT, LIMITED, above ? "MISSED" : "holds");
    return above;
}
