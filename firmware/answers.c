/* Calls every function of include/clock_api.h and writes every answer, and every word lent, to a file. Compiled for x86-64 and for Cortex-M33, the
 * files must be the same (scripts/check-firmware). The stored answers of the Rust, answers.bin (docs/VECTORS.md), are compared here as well, and so
 * is what no call may change: the words beside a slice, a slice that is refused, the rest of a walk's room, a request and a chip.
 *
 * On the chip each function runs on a stack of its own, with MSPLIM at its end, and is measured: how much of the stack it used at most, and how many
 * instructions it took, which is time where QEMU runs with -icount shift=0.
 *
 * Every draw is a statement of its own: C leaves the order of operands open, and two compilers differ in it. */
#include "clock_api.h"
#include <inttypes.h>
#include <stdio.h>
#include <string.h>

#ifndef REQUESTS
#define REQUESTS 5000 /* changed from the stored ones */
#endif
#ifndef STACK
#define STACK 8192 /* bytes for each function */
#endif
#ifndef OUT
#define OUT "words"
#endif
#ifndef REFUSALS
#error "REFUSALS: the numbers of the refusals that a call answers, with commas (scripts/check-firmware has them from docs/CODES.md)"
#endif
static const uint8_t refusals_to_meet[] = {REFUSALS};

enum { STEPS = 3000, GUARD = 16, MOST = 81 * CLOCK_ENTRY };

static uint64_t seed = 88172645463325252u;
static uint32_t draw(void) {
    seed ^= seed << 13;
    seed ^= seed >> 7;
    seed ^= seed << 17;
    return (uint32_t)(seed >> 16);
}
static uint32_t below(uint32_t n) { return draw() % n; }
/* of any size */
static uint32_t any(void) {
    uint32_t word = draw(), bits = below(32);
    return word >> bits;
}

/* ---- what is written */

static FILE *out;
static uint32_t buffer[4096], filled, words, wrong;
static void flush(void) {
    if (fwrite(buffer, 4, filled, out) != filled) wrong++;
    filled = 0;
}
static void put(uint32_t word) {
    buffer[filled++] = word;
    words++;
    if (filled == sizeof buffer / sizeof *buffer) flush();
}
static void put_bytes(const uint8_t *bytes, uint32_t count) {
    for (uint32_t k = 0; k < count; k++) put(bytes[k]);
}

/* ---- what is lent: words with a pattern, between others with it */

typedef struct {
    uint32_t all[MOST + 2 * GUARD];
} Lent;
static Lent report, list, bank, shown, few;
static uint32_t *first(Lent *lent) { return lent->all + GUARD; }
static uint32_t pattern(uint32_t k) { return 0xA5A50000u + k; }
static void fill(Lent *lent) {
    for (uint32_t k = 0; k < MOST + 2 * GUARD; k++) lent->all[k] = pattern(k);
}
/* so many of the first words may have been written, and no other; so many go to the file */
static void taken(const Lent *lent, uint32_t written, uint32_t length) {
    for (uint32_t k = 0; k < MOST + 2 * GUARD; k++)
        if ((k < GUARD || k >= GUARD + written) && lent->all[k] != pattern(k)) wrong++;
    for (uint32_t k = 0; k < length + 2 * GUARD; k++) put(lent->all[k]);
}

/* ---- the functions, each called with what `now` has */

static struct {
    const uint8_t *request, *chip, *part;
    const uint32_t *reads;
    uint32_t *out, *more;
    uint64_t request_length, chip_length, part_length, reads_length, out_length, more_length;
    uint32_t a, b, c, d;
} now;
#define REQUEST now.request, now.request_length, now.chip, now.chip_length
#define READS now.reads, now.reads_length
#define WRITTEN now.out, now.out_length
#define FUNCTIONS(EACH)                                                                                                                    \
    EACH(clock_plan, REQUEST, WRITTEN)                                                                                                     \
    EACH(clock_entries, REQUEST, WRITTEN)                                                                                                  \
    EACH(clock_bank, REQUEST, WRITTEN)                                                                                                     \
    EACH(clock_plan_bank, REQUEST, WRITTEN, now.more, now.more_length)                                                                     \
    EACH(clock_pll_registers, REQUEST, WRITTEN)                                                                                            \
    EACH(clock_walk, REQUEST, READS, WRITTEN)                                                                                              \
    EACH(clock_voltage_walk, now.a, READS, WRITTEN)                                                                                        \
    EACH(clock_reset_reason, now.a, now.b, WRITTEN)                                                                                        \
    EACH(clock_pll, now.a, now.b, now.part, now.part_length, WRITTEN)                                                                      \
    EACH(clock_fracn, now.a, now.b, now.c, now.d)                                                                                          \
    EACH(clock_vco, now.a, now.b, now.c)                                                                                                   \
    EACH(clock_flash, now.a, now.b)                                                                                                        \
    EACH(clock_ahb, now.a, now.b, now.c, WRITTEN)                                                                                          \
    EACH(clock_apb, now.a, now.b, now.c, WRITTEN)                                                                                          \
    EACH(clock_timer, now.a, now.b)                                                                                                        \
    EACH(clock_mco, now.a, now.b, now.c, WRITTEN)
#define CALL(name, ...) static uint64_t call_##name(void) { return name(__VA_ARGS__); }
FUNCTIONS(CALL)
#define NUMBER(name, ...) AT_##name,
enum { FUNCTIONS(NUMBER) COUNT };
#define ROW(name, ...) {#name, call_##name},
static const struct {
    const char *name;
    uint64_t (*call)(void);
} functions[COUNT] = {FUNCTIONS(ROW)};

static uint32_t calls[COUNT], met[256], ticks;
/* how often a call is made, once or a hundred times, to measure one that is shorter than a tick */
static uint32_t times = 1;

#ifdef __arm__
static uint64_t stacks[COUNT][STACK / 8];
static const uint64_t paint = 0x5AFE57AC5AFE57ACu;
#define SYSTICK ((volatile uint32_t *)0xE000E010)
static void start_ticks(void) { SYSTICK[1] = 0xFFFFFF, SYSTICK[2] = 0, SYSTICK[0] = 5; }
/* calls so often, with that stack and MSPLIM at its end */
__attribute__((naked, noinline)) static uint64_t on_stack(uint64_t *top, uint64_t *end, uint64_t (*call)(void), uint32_t so_often) {
    (void)top, (void)end, (void)call, (void)so_often;
    __asm volatile("push {r4, r5, r6, lr}\n mov r4, sp\n mov r5, r2\n mov r6, r3\n msr msplim, r1\n mov sp, r0\n"
                   "1: blx r5\n subs r6, #1\n bne 1b\n mov sp, r4\n pop {r4, r5, r6, pc}");
}
static uint64_t run(uint32_t k) {
    uint32_t before = SYSTICK[2];
    uint64_t answer = on_stack(stacks[k] + STACK / 8, stacks[k], functions[k].call, times);
    ticks = (before - SYSTICK[2]) & 0xFFFFFF;
    return answer;
}
static uint32_t used(uint32_t k) {
    uint32_t free = 0;
    while (free < STACK / 8 && stacks[k][free] == paint) free++;
    return STACK - 8 * free;
}
#else
static uint64_t run(uint32_t k) { return functions[k].call(); }
#endif

static uint64_t call(uint32_t k) {
    uint64_t answer = run(k);
    calls[k]++;
    put((uint32_t)answer);
    return answer;
}
/* counts the call before among those that are measured */
static int measuring;
static uint64_t spent[COUNT];
static uint32_t measured[COUNT], longest[COUNT];
static void measure(uint32_t k) {
    if (!measuring) return;
    spent[k] += ticks;
    measured[k] += times;
    if (ticks * (100 / times) > longest[k]) longest[k] = ticks * (100 / times);
}
/* a call that answers with a refusal's number, or 0 and has written so many words of `lent` */
static uint32_t answered(uint32_t k, Lent *lent, uint32_t length) {
    uint32_t code;
    fill(lent);
    now.out = first(lent), now.out_length = length;
    code = (uint32_t)call(k);
    if (code < sizeof met / sizeof *met) met[code]++; else wrong++;
    taken(lent, code == 0 ? length : 0, length);
    return code;
}
/* a walk with room for so many words: nine of them are written for each thing that is stored */
static uint32_t walked(uint32_t k, const uint32_t *reads, uint64_t values, uint64_t room) {
    uint64_t count, most = values / 2 + 1;
    fill(&shown);
    now.reads = reads, now.reads_length = values, now.out = first(&shown), now.out_length = room;
    count = call(k);
    put((uint32_t)(count >> 32));
    if (count != (most < room / 9 ? most : room / 9)) wrong++;
    taken(&shown, 9 * (uint32_t)count, room < MOST ? (uint32_t)room : MOST);
    return (uint32_t)count;
}

/* ---- the steps */

static const uint32_t edges[] = {0,       1,        2,         3,          4,           16,          512,         8191,       8192, 65535, 65536,
                                 1000000, 32000000, 250000000, 0x7FFFFFFF, 0x80000000u, 0xFFFFFFFEu, 0xFFFFFFFFu};
enum { EDGES = sizeof edges / sizeof *edges };
static const uint32_t usual[] = {4000000,   8000000,   12000000,  16000000, 24000000, 25000000, 32000000, 48000000, 50000000,
                                 64000000,  100000000, 150000000, 200000000, 240000000, 250000000, 250000001, 32768,    44100,
                                 48000,     11289600,  12288000,  22579200, 24576000, 49152000, 0,        1,        1000000};
enum { USUAL = sizeof usual / sizeof *usual };

static uint32_t number(uint32_t k, uint32_t a, uint32_t b, uint32_t c, uint32_t d) {
    now.a = a, now.b = b, now.c = c, now.d = d;
    return (uint32_t)call(k);
}
static void stored_in(uint32_t k, uint32_t a, uint32_t b, uint32_t c, uint32_t length) {
    now.a = a, now.b = b, now.c = c;
    answered(k, &few, length);
}
static void buses(uint32_t clock, uint32_t set, uint32_t hertz) {
    stored_in(AT_clock_ahb, clock, set, hertz, 2), measure(AT_clock_ahb);
    stored_in(AT_clock_apb, clock, set, hertz, 2), measure(AT_clock_apb);
    stored_in(AT_clock_mco, clock, set, hertz, 3), measure(AT_clock_mco);
}

static uint32_t fractions, plls, arrived;

/* one PLL, by its 16 bytes of a request: P, Q and R as their bits in `set` say */
static void ask_pll(uint32_t odd, uint32_t source, uint32_t strategy, uint32_t set, const uint32_t *hertz) {
    uint8_t part[CLOCK_PART] = {0};
    part[0] = (uint8_t)strategy;
    for (uint32_t k = 0; k < 3; k++) {
        if ((set >> k & 1) == 0) continue;
        part[1 + 5 * k] = 1;
        for (uint32_t byte = 0; byte < 4; byte++) part[2 + 5 * k + byte] = (uint8_t)(hertz[k] >> 8 * byte);
    }
    put(odd), put(source), put_bytes(part, sizeof part);
    now.part = part, now.part_length = sizeof part;
    now.a = odd, now.b = source;
    if (answered(AT_clock_pll, &few, CLOCK_PLL) == 0) plls++, measure(AT_clock_pll);
}
static void drawn_pll(void) {
    uint32_t hertz[3], set = 1, largest = 0, odd = below(2), source = usual[below(9)], fractional = below(4), free = below(3);
    if (free) source = 1000000 + below(49000001);
    for (uint32_t k = 0; k < 3; k++) {
        uint32_t left = below(2), how = below(4);
        hertz[k] = usual[below(USUAL)];
        if (k > 0 && left) continue;
        if (how == 0) hertz[k] = 1000000 + below(249000001);
        if (k > 0 && how > 1) hertz[k] = largest / (1 + below(8));
        if (hertz[k] > largest) largest = hertz[k];
        set |= 1u << k;
    }
    ask_pll(odd, source, fractional != 0, set, hertz);
}
/* around the bounds of the VCO, of a reference and of 32 bits: each output alone, and beside one of a 128th */
static void bounds_of_pll(void) {
    static const uint32_t bounds[] = {1,         1000000,   1171875,   3281250,   4375000,   128000000,  150000000,   250000000,
                                      210000000, 280000000, 420000000, 480000030, 560000000, 0x7FFFFFFF, 0x80000000u, 0xFFFFFFFEu};
    static const uint32_t sources[] = {0,       1,       999999,  1000000,  1999999,  2000000,  2000001,  4000000,  8000000,
                                       15999999, 16000000, 16000001, 25000000, 32000000, 50000000, 63999999, 64000000, 0xFFFFFFFFu};
    for (uint32_t k = 0; k < sizeof bounds / sizeof *bounds; k++)
        for (uint32_t source = 0; source < sizeof sources / sizeof *sources; source++)
            for (uint32_t near = 0; near < 3; near++) {
                uint32_t at = bounds[k] + near - 1, least = bounds[k] / 128 + near - 1;
                for (uint32_t strategy = 0; strategy < 2; strategy++) {
                    for (uint32_t output = 0; output < 3; output++)
                        ask_pll(source & 1, sources[source], strategy, 1u << output, (const uint32_t[]){at, at, at});
                    ask_pll(1, sources[source], strategy, 6, (const uint32_t[]){0, bounds[k], least});
                    ask_pll(0, sources[source], strategy, 5, (const uint32_t[]){bounds[k], 0, least});
                }
            }
}

static void some_steps(void) {
    uint32_t x = any(), y = any(), z = any(), w = any();
    uint32_t reference = 1000000 + below(15000001), n = 4 + below(509), divider = 1 + below(128), fracn = below(8192), more = below(3);
    uint32_t output = (uint32_t)(((uint64_t)reference * n + ((uint64_t)reference * fracn >> 13)) / divider) + more;
    uint32_t reads[8];
    number(AT_clock_fracn, x, y, z, w);
    if (number(AT_clock_fracn, reference, n, output, divider) < 8192) fractions++;
    measure(AT_clock_fracn);
    number(AT_clock_vco, x, y, z, 0);
    number(AT_clock_vco, reference, n, fracn, 0), measure(AT_clock_vco);
    number(AT_clock_flash, x, w & 7, 0, 0), measure(AT_clock_flash);
    number(AT_clock_timer, x, 1u << (w & 7), 0, 0), measure(AT_clock_timer);
    number(AT_clock_timer, x, y, 0, 0);
    buses(x, w & 1, z);
    stored_in(AT_clock_reset_reason, 2 + (w & 1), x ^ z, 0, CLOCK_REASON), measure(AT_clock_reset_reason);
    drawn_pll();
    for (uint32_t k = 0; k < 8; k++) {
        uint32_t late = below(4);
        reads[k] = late ? 1 : below(4);
    }
    now.a = below(4);
    x = 2 * below(5), y = below(46);
    if (measuring) x = 8, y = 45;
    y = walked(AT_clock_voltage_walk, reads, x, y), measure(AT_clock_voltage_walk);
    if (y > 0 && first(&shown)[9 * y - 9] == 0) arrived++;
}

static void steps(void) {
    static const uint32_t ratios[] = {1, 2, 3, 4, 5, 6, 8, 11, 12, 15, 16, 32, 39, 40, 64, 95, 96, 128, 191, 192, 256, 383, 384, 512};
    /* the measured ones are drawn first, and so are the same whatever follows */
    measuring = 1, times = 100;
    for (uint32_t k = 0; k < 100; k++) some_steps();
    measuring = 0, times = 1;
    /* every edge with every other */
    for (uint32_t a = 0; a < EDGES; a++)
        for (uint32_t b = 0; b < EDGES; b++) {
            for (uint32_t c = 0; c < EDGES; c++) {
                number(AT_clock_vco, edges[a], edges[b], edges[c], 0);
                for (uint32_t d = 0; d < EDGES; d += 3) number(AT_clock_fracn, edges[a], edges[b], edges[c], edges[d]);
            }
            number(AT_clock_timer, edges[a], edges[b], 0, 0);
            number(AT_clock_flash, edges[a], edges[b], 0, 0);
            for (uint32_t set = 0; set < 3; set++) buses(edges[a], set, edges[b]);
            stored_in(AT_clock_reset_reason, edges[a], edges[b], 0, CLOCK_REASON);
        }
    /* around each megahertz on each scale, and each divisor */
    for (uint32_t hertz = 0; hertz <= 300000000; hertz += 1000000)
        for (uint32_t scale = 0; scale < 5; scale++)
            for (uint32_t k = 0; k < 3; k++) number(AT_clock_flash, hertz + k - 1, scale, 0, 0);
    for (uint32_t k = 0; k < sizeof ratios / sizeof *ratios; k++)
        for (uint32_t c = 0; c < 8; c++)
            for (uint32_t d = 0; d < 3; d++) buses(usual[c] * ratios[k] + d - 1, 1, usual[c]);
    for (uint32_t ppre = 0; ppre < 40; ppre++) number(AT_clock_timer, 250000000, ppre, 0, 0);
    bounds_of_pll();
    /* every set of reset flags, among other bits */
    for (uint32_t flags = 0; flags < 64; flags++)
        for (uint32_t chip = 2; chip < 4; chip++) {
            uint32_t other = draw() & 0x03FFFFFF;
            stored_in(AT_clock_reset_reason, chip, flags << 26 | other, 0, CLOCK_REASON);
        }
    for (uint32_t k = 0; k < STEPS; k++) some_steps();
}

/* ---- slices of other lengths: refused, and nothing is written */

static const uint8_t nothing_asked[CLOCK_REQUEST_3], chip_of_three[CLOCK_CHIP] = {3, 0, 0, 0, 0, 1, 2};
static uint32_t refusals;
/* a call of each function that is not refused */
static void right_call(uint32_t k, uint32_t length) {
    now.request = nothing_asked, now.request_length = CLOCK_REQUEST_3, now.chip = chip_of_three, now.chip_length = CLOCK_CHIP;
    now.part = nothing_asked, now.part_length = CLOCK_PART;
    now.out_length = length, now.more = first(&bank), now.more_length = CLOCK_BANK;
    now.a = k == AT_clock_pll ? 1 : k == AT_clock_reset_reason ? 2 : 32000000, now.b = k == AT_clock_pll ? 32000000 : 0, now.c = 0;
}
static void lengths(void) {
    static const struct {
        uint32_t at, length, code;
        uint64_t *changed;
    } slices[] = {
        {AT_clock_plan, CLOCK_REPORT, 1, &now.request_length},              {AT_clock_plan, CLOCK_REPORT, 1, &now.chip_length},
        {AT_clock_plan, CLOCK_REPORT, 1, &now.out_length},                  {AT_clock_entries, CLOCK_LIST, 1, &now.request_length},
        {AT_clock_entries, CLOCK_LIST, 1, &now.chip_length},                {AT_clock_entries, CLOCK_LIST, 1, &now.out_length},
        {AT_clock_bank, CLOCK_BANK, 1, &now.request_length},                {AT_clock_bank, CLOCK_BANK, 1, &now.chip_length},
        {AT_clock_bank, CLOCK_BANK, 2, &now.out_length},                    {AT_clock_plan_bank, CLOCK_REPORT, 1, &now.request_length},
        {AT_clock_plan_bank, CLOCK_REPORT, 1, &now.chip_length},            {AT_clock_plan_bank, CLOCK_REPORT, 1, &now.out_length},
        {AT_clock_plan_bank, CLOCK_REPORT, 2, &now.more_length},            {AT_clock_pll_registers, CLOCK_PLL_REGISTERS, 1, &now.request_length},
        {AT_clock_pll_registers, CLOCK_PLL_REGISTERS, 1, &now.chip_length}, {AT_clock_pll_registers, CLOCK_PLL_REGISTERS, 1, &now.out_length},
        {AT_clock_reset_reason, CLOCK_REASON, 1, &now.out_length},          {AT_clock_pll, CLOCK_PLL, 1, &now.part_length},
        {AT_clock_pll, CLOCK_PLL, 1, &now.out_length},                      {AT_clock_ahb, 2, 1, &now.out_length},
        {AT_clock_apb, 2, 1, &now.out_length},                              {AT_clock_mco, 3, 1, &now.out_length},
    };
    static const uint32_t reads[40] = {1, 1, 1, 1, 1, 1, 1, 1}, values[] = {0, 1, 2, 3, 39, 40}, rooms[] = {0, 1, 8, 9, 10, 17, 18, 100, 400};
    const uint64_t high = (uint64_t)1 << 32;
    for (uint32_t k = 0; k < sizeof slices / sizeof *slices; k++) {
        uint32_t at = slices[k].at, right;
        right_call(at, slices[k].length);
        right = (uint32_t)*slices[k].changed;
        fill(&bank);
        if (answered(at, &few, slices[k].length) != 0) wrong++;
        /* the last two have the right low half: all 64 bits of a length reach the library */
        const uint64_t other[] = {0, 1, right - 1, right + 1, 3 * right + 5, high + right, (high << 31) + right};
        for (uint32_t n = 0; n < sizeof other / sizeof *other; n++) {
            if (other[n] == right) continue;
            fill(&few), fill(&bank);
            *slices[k].changed = other[n];
            if (call(at) != slices[k].code) wrong++;
            met[slices[k].code]++;
            refusals++;
            taken(&few, 0, CLOCK_LIST), taken(&bank, 0, CLOCK_BANK);
        }
    }
    /* a walk has no wrong length: it stores what there are room and values for */
    for (uint32_t room = 0; room < sizeof rooms / sizeof *rooms; room++)
        for (uint32_t n = 0; n < sizeof values / sizeof *values; n++) {
            right_call(AT_clock_walk, 0);
            walked(AT_clock_walk, reads, values[n], rooms[room]);
            now.request_length = 5;
            walked(AT_clock_walk, reads, values[n], rooms[room]);
            now.a = n;
            walked(AT_clock_voltage_walk, reads, values[n], rooms[room]);
        }
    right_call(AT_clock_walk, 0);
    walked(AT_clock_walk, reads, 40, high + 9);
    walked(AT_clock_walk, reads, high + 2, 9);
    now.a = 0;
    walked(AT_clock_voltage_walk, reads, 40, high + 9);
    walked(AT_clock_voltage_walk, reads, high + 2, 9);
}

/* ---- requests */

static uint32_t plans, refused, finished, again, ended, less;

static int same(const Lent *one, const Lent *other) { return memcmp(one, other, sizeof *one) == 0; }

/* CFGR, DIVR and FRACR of each PLL have no bit outside their fields; those of a PLL that the chip lacks stay */
static void registers(uint32_t of_plls) {
    static const uint32_t fields[] = {0x00073F3F, 0x7F7FFFFF, 0x0000FFF8};
    for (uint32_t k = 0; k < CLOCK_PLL_REGISTERS; k++)
        wrong += k < 3 * of_plls ? (first(&few)[k] & ~fields[k % 3]) != 0 : first(&few)[k] != pattern(GUARD + k);
}

/* all the calls for one request, in 128 bytes */
static uint32_t ask(const uint8_t *request, uint32_t length, const uint8_t *chip) {
    static Lent both;
    uint8_t request_before[128], chip_before[CLOCK_CHIP];
    uint32_t code, entries, how, at, values, room, reads[2 * (MOST / 9)];
    const uint32_t *nine, *entry = first(&list) + 1;
    now.request = request, now.request_length = length, now.chip = chip, now.chip_length = CLOCK_CHIP;
    put(length), put_bytes(request, length), put_bytes(chip, CLOCK_CHIP);
    memcpy(request_before, request, sizeof request_before), memcpy(chip_before, chip, CLOCK_CHIP);

    code = answered(AT_clock_plan, &report, CLOCK_REPORT);
    if (code == 0) plans++, measure(AT_clock_plan); else refused++;
    if (answered(AT_clock_entries, &list, CLOCK_LIST) != code) wrong++;
    if (code == 0) measure(AT_clock_entries);
    entries = code == 0 ? first(&list)[0] : 0;
    if (entries > CLOCK_LIST / CLOCK_ENTRY) return wrong++, code;
    for (uint32_t k = GUARD + 1 + 9 * entries; k < GUARD + CLOCK_LIST; k++) wrong += code == 0 && list.all[k] != pattern(k);
    if (answered(AT_clock_bank, &bank, CLOCK_BANK) != code) wrong++;
    if (code == 0) measure(AT_clock_bank);
    fill(&both);
    now.more = first(&both), now.more_length = CLOCK_BANK;
    if (answered(AT_clock_plan_bank, &few, CLOCK_REPORT) != code || !same(&few, &report) || !same(&both, &bank)) wrong++;
    if (code == 0) measure(AT_clock_plan_bank);
    if (answered(AT_clock_pll_registers, &few, CLOCK_PLL_REGISTERS) != code) wrong++;
    if (code == 0) registers(chip[0]), measure(AT_clock_pll_registers);

    /* values that pass each entry: the list as it is, then nine 0; or the refusal, as often as anything shown */
    for (uint32_t k = 0; k < entries; k++) {
        nine = entry + 9 * k;
        reads[2 * k] = nine[0] == 1 ? 7 : nine[2], reads[2 * k + 1] = nine[0] == 1 ? 7 : nine[4];
    }
    if (code != 0) memset(reads, 0, sizeof reads);
    values = code == 0 ? 2 * entries : 4;
    walked(AT_clock_walk, reads, values, 9 * (values / 2 + 1));
    if (code == 0) measure(AT_clock_walk);
    for (uint32_t k = 0; k <= values / 2; k++) {
        static const uint32_t none[8];
        nine = first(&shown) + 9 * k;
        if (code != 0) wrong += nine[0] != 5 || nine[1] != code || memcmp(nine + 2, none, 28) != 0;
        else if (k == entries) wrong += nine[0] != 0 || memcmp(nine + 1, none, 32) != 0, finished++;
        else wrong += memcmp(nine, entry + 9 * k, 36) != 0;
    }
    if (memcmp(request_before, request, sizeof request_before) != 0 || memcmp(chip_before, chip, CLOCK_CHIP) != 0) wrong++;
    if (code != 0) return code;

    /* and values that do not: a wait again, CSIRDY down at its check, fewer values and less room, any values */
    how = below(4), room = 9 * (entries + 2), at = below(entries);
    if (how == 0) {
        memmove(reads + 2 * at + 2, reads + 2 * at, 8 * (entries - at));
        reads[2 * at] = reads[2 * at + 1] = 9;
        values += 2;
    } else if (how == 1) {
        for (uint32_t k = 0; k < entries; k++)
            if (entry[9 * k] == 3) reads[2 * k] = 0;
    } else if (how == 2) {
        values = below(values), room = below(room);
    } else {
        for (uint32_t k = 0; k < values; k++) {
            uint32_t late = below(8);
            if (late == 0) reads[k] = below(4);
        }
    }
    walked(AT_clock_walk, reads, values, room);
    nine = first(&shown) + 9 * at;
    if (how == 0 && nine[0] == 2 && memcmp(nine, nine + 9, 36) == 0) again++;
    nine = first(&shown) + 9 * entries;
    if (how == 1 && nine[0] == 5 && nine[1] == 24) ended++, met[24]++;
    if (how == 2) less++;
    return code;
}

static uint8_t file[1024 * 1024];
static const uint8_t *records[400];
static uint32_t count, differ;

/* the stored answers: docs/VECTORS.md has their form */
static int stored(void) {
    FILE *from = fopen("answers.bin", "rb");
    uint32_t size = from ? (uint32_t)fread(file, 1, sizeof file, from) : 0;
    const uint8_t *at = file + 4;
    if (from) fclose(from);
    if (size < 4 || size == sizeof file) return 0;
    count = file[0] | file[1] << 8;
    if (count > sizeof records / sizeof *records) return 0;
    for (uint32_t k = 0; k < count; k++) {
        uint32_t entries = at[3], code = ask(at + 12, at[4], at + 5), other = code != at[2];
        records[k] = at;
        if (at[2] == 0) {
            for (uint32_t n = 0; n < CLOCK_REPORT; n++) {
                const uint8_t *word = at + 140 + 4 * n;
                other |= first(&report)[n] != (word[0] | word[1] << 8 | word[2] << 16 | (uint32_t)word[3] << 24);
            }
            other |= first(&list)[0] != entries;
            for (uint32_t n = 0; n < 9 * entries; n++) other |= first(&list)[1 + n] != (uint32_t)(at[360 + 2 * n] | at[361 + 2 * n] << 8);
            at += 360 + 18 * entries;
        } else
            at += 140;
        differ += other;
    }
    return at == file + size;
}

/* one thing of a request or a chip changed: hertz, a code, a number of the chip, any byte */
static void change(uint8_t *request, uint32_t length, uint8_t *chip) {
    static const uint8_t hertz_at[] = {0, 5, 10, 15, 20, 25, 30, 35, 40, 47, 53, 59, 64, 69, 75, 80, 85, 91, 96, 101};
    static const uint8_t code_at[] = {45, 46, 52, 58, 74, 90};
    uint32_t kind = below(32), at, how, hertz;
    if (kind < 22) {
        at = hertz_at[below(sizeof hertz_at)], how = below(8);
        if (at + 5 > length) return;
        hertz = request[at + 1] | request[at + 2] << 8 | request[at + 3] << 16 | (uint32_t)request[at + 4] << 24;
        if (how < 4) hertz = usual[below(USUAL)];
        else if (how == 4) hertz += below(3) - 1;
        else if (how == 5) hertz = draw();
        else if (how == 6) hertz = below(260000000);
        request[at] = how < 7;
        for (uint32_t k = 0; k < 4; k++) request[at + 1 + k] = how < 7 ? (uint8_t)(hertz >> 8 * k) : 0;
    } else if (kind < 27) {
        at = code_at[below(sizeof code_at)], how = below(6);
        if (at < length) request[at] = (uint8_t)(at == 46 || at == 52 ? how : how & 1);
    } else if (kind < 31) {
        at = 1 + below(4), how = below(4);
        chip[at] = (uint8_t)(at == 4 ? how : how & 1);
    } else {
        at = below(length + CLOCK_CHIP), how = below(4);
        if (at < length) request[at] = (uint8_t)draw(); else chip[at - length] = (uint8_t)how;
    }
}
static void changed(uint32_t requests) {
    for (uint32_t k = 0; k < requests; k++) {
        const uint8_t *at;
        uint8_t request[128], chip[CLOCK_CHIP];
        uint32_t often, length, cut = below(64);
        do {
            at = records[below(count)];
            often = below(4);
        } while (at[2] != 0 && often != 0);
        memcpy(request, at + 12, sizeof request), memcpy(chip, at + 5, CLOCK_CHIP);
        length = at[4];
        for (often = 1 + below(3); often > 0; often--) change(request, length, chip);
        if (cut == 0) length = below(sizeof request);
        ask(request, length, chip);
    }
}

int main(void) {
    uint32_t before;
    out = fopen(OUT, "wb");
    if (!out) return 1;
    setvbuf(out, NULL, _IONBF, 0);
#ifdef __arm__
    for (uint32_t k = 0; k < COUNT; k++)
        for (uint32_t n = 0; n < STACK / 8; n++) stacks[k][n] = paint;
    start_ticks();
#endif
    steps();
    lengths();
    before = words;
    measuring = 1;
    if (!stored()) wrong++;
    measuring = 0;
    printf("stored answers: %" PRIu32 " requests, %" PRIu32 " plans, %" PRIu32 " refusals; %" PRIu32 " differ\n", count, plans, refused, differ);
    plans = refused = 0;
    if (count > 0) changed(REQUESTS);
    printf("changed requests: %d, %" PRIu32 " plans, %" PRIu32 " refusals\n", REQUESTS, plans, refused);
    printf("register walks: %" PRIu32 " to the end, %" PRIu32 " with a wait again, %" PRIu32 " ended by 24, ", finished, again, ended);
    printf("%" PRIu32 " with less room or fewer values\n", less);
    printf("steps: %" PRIu32 " times FRACN, %" PRIu32 " in range where it was meant to be; ", calls[AT_clock_fracn], fractions);
    printf("%" PRIu32 " PLLs chosen; %" PRIu32 " voltage walks to the end\n", plls, arrived);
    printf("other lengths: %" PRIu32 " refused\n", refusals);
    flush();
    if (fclose(out) != 0) wrong++;
    printf("words: %" PRIu32 ", %" PRIu32 " of them before the requests\n", words, before);
    for (uint32_t k = 0; k < COUNT; k++) printf("called: %s %" PRIu32 "\n", functions[k].name, calls[k]);
    for (uint32_t k = 0; k < sizeof refusals_to_meet / sizeof *refusals_to_meet; k++)
        if (met[refusals_to_meet[k]] == 0) printf("refusal %d was not met\n", refusals_to_meet[k]), wrong++;
    if (!again || !ended || !less || !fractions || !plls || !arrived) wrong++;
#ifdef __arm__
    uint32_t loops = 500000, tick = SYSTICK[2], each;
    __asm volatile("1: subs %0, #1\n bne 1b" : "+r"(loops) : : "cc");
    tick = (tick - SYSTICK[2]) & 0xFFFFFF;
    each = (1000000 + tick / 2) / tick; /* instructions of a tick */
    for (uint32_t k = 0; k < COUNT; k++)
        printf("measured: %s %" PRIu32 " %" PRIu32 " %" PRIu32 "\n", functions[k].name, measured[k] ? (uint32_t)(spent[k] * each / measured[k]) : 0,
               (uint32_t)((uint64_t)longest[k] * each / 100), used(k));
#endif
    printf("%" PRIu32 " wrong\n", wrong);
    return wrong != 0 || differ != 0;
}
