/* Plans bench setting A of document 01 and prints its clocks: system 250 MHz from HSI, odd P forbidden, on a chip with three PLLs. */
#include "clock_api.h"
#include <inttypes.h>
#include <stdio.h>

/* the clocks of a report, in order */
static const char *const names[26] = {
    "sys", "hclk",  "pclk1", "pclk2", "pclk3", "timx",   "timy",   "per",    "hsi",    "csi",    "hsi48",  "lsi",    "hse",
    "lse", "audio", "mco1",  "mco2",  "pll1_p", "pll1_q", "pll1_r", "pll2_p", "pll2_q", "pll2_r", "pll3_p", "pll3_q", "pll3_r",
};

/* the system clock is at byte 15 of a request: a byte 1 for set, then the hertz in four bytes, the lowest first */
enum { SYSTEM = 15 };
/* words of a bank */
enum { VCOSEL = 0, M = 2, N = 3, P = 6, WRHIGHFREQ = 47, LATENCY = 48 };

static void set_hertz(uint8_t *at, uint32_t hertz) {
    at[0] = 1;
    for (int k = 0; k < 4; k++) at[1 + k] = (uint8_t)(hertz >> 8 * k);
}

static int refused(uint32_t number) {
    printf("refused %" PRIu32 "\n", number);
    return 1;
}

int main(void) {
    /* three PLLs, odd P forbidden in each, Scale0, HSION 1, HSIDIV 2 */
    const uint8_t chip[CLOCK_CHIP] = {3, 0, 0, 0, 0, 1, 2};
    uint8_t request[CLOCK_REQUEST_3] = {0};
    uint32_t report[CLOCK_REPORT], list[CLOCK_LIST], bank[CLOCK_BANK] = {0}, number;

    set_hertz(request + SYSTEM, 250000000);
    number = clock_plan(request, sizeof request, chip, sizeof chip, report, CLOCK_REPORT);
    if (number != 0) return refused(number);
    for (int k = 0; k < 26; k++) {
        if (report[2 * k] == 1) printf("%s %" PRIu32 "\n", names[k], report[2 * k + 1]);
    }

    number = clock_bank(request, sizeof request, chip, sizeof chip, bank, CLOCK_BANK);
    if (number != 0) return refused(number);
    printf("PLL1 %s, M %" PRIu32 ", N %" PRIu32 ", P %" PRIu32 "\n", bank[VCOSEL] ? "medium" : "wide", bank[M], bank[N] + 1, bank[P] + 1);
    printf("latency %" PRIu32 ", delay %" PRIu32 "\n", bank[LATENCY], bank[WRHIGHFREQ]);

    number = clock_entries(request, sizeof request, chip, sizeof chip, list, CLOCK_LIST);
    if (number != 0) return refused(number);
    printf("%" PRIu32 " entries\n", list[0]);
    return 0;
}
