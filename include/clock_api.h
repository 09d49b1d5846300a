/* The C functions of the clock planner: link with libclock_api.a, which `make library` leaves in target/staticlib, or on a Cortex-M33 with one
 * of the archives that `make firmware` leaves in target/firmware.
 *
 * Codes, field numbers and refusal numbers are those of docs/CODES.md. `scripts/check-api` holds the declarations to the sources.
 *
 * A slice is a pointer and a length, counted in elements. The pointer must have that many elements, and one that is written must not
 * overlap another of the same call. Nothing is kept after a call, nothing is allocated, and any lengths and contents may be passed: what is
 * outside the codes is refused. A length is a 64-bit number on every target, on a 32-bit chip too (docs/FIRMWARE.md). */
#ifndef CLOCK_API_H
#define CLOCK_API_H

#include <stdint.h>

#ifdef __cplusplus
extern "C" {
#endif

/* Bytes of a request for a chip with two PLLs, and with three. */
#define CLOCK_REQUEST_2 90
#define CLOCK_REQUEST_3 106
/* Bytes of a chip: PLL count, odd P of PLL1, PLL2, PLL3, voltage scale, HSION, HSIDIV. */
#define CLOCK_CHIP 7
/* Words of a report: 26 clocks as (0 or 1, hertz), then PPRE1 to PPRE3. */
#define CLOCK_REPORT 55
/* Words of a list: the count of its entries, at most 69, then nine words for each. */
#define CLOCK_LIST 622
/* Words of a bank: one for each field. */
#define CLOCK_BANK 82
/* Words of the PLLs' registers: CFGR, DIVR, FRACR of PLL1, of PLL2, of PLL3. */
#define CLOCK_PLL_REGISTERS 9
/* Words of an entry, or of what a walk shows: a kind, then four times a field + 1, or 0, and a value. */
#define CLOCK_ENTRY 9
/* Words of a reset reason. */
#define CLOCK_REASON 3
/* Bytes of one PLL's part of a request, and words of what is chosen for it. */
#define CLOCK_PART 16
#define CLOCK_PLL 18

/* Plans a request; its clocks are stored in `report`, of 55 words. The clocks in order: sys, hclk, pclk1, pclk2, pclk3, timx, timy, per,
 * hsi, csi, hsi48, lsi, hse, lse, audio, mco1, mco2, then P, Q, R of PLL1, PLL2, PLL3.
 * Returns 0, or the refusal's number: 1 for a request, chip or report of another length, else by the request and the chip one of those that
 * docs/CODES.md lists as answered by plan. A refused call leaves `report` as it was. */
uint32_t clock_plan(const uint8_t *request, uint64_t request_length, const uint8_t *chip, uint64_t chip_length, uint32_t *report,
                    uint64_t report_length);

/* Plans a request; its register entries are stored in `list`, of CLOCK_LIST words: the count, then the entries in order, nine words each. The kind
 * of an entry is 1 set, 2 wait or 3 check. The words after the last entry stay as they were.
 * Returns as clock_plan does. A refused call leaves `list` as it was. */
uint32_t clock_entries(const uint8_t *request, uint64_t request_length, const uint8_t *chip, uint64_t chip_length, uint32_t *list,
                       uint64_t list_length);

/* Plans a request and applies its whole list, in order, to `bank`, of 82 words; fields that no entry sets stay as they were.
 * Returns as clock_plan does, and 2 for a bank of another length. A refused call leaves `bank` as it was. */
uint32_t clock_bank(const uint8_t *request, uint64_t request_length, const uint8_t *chip, uint64_t chip_length, uint32_t *bank,
                    uint64_t bank_length);

/* Plans a request once, and does what clock_plan and clock_bank do: its clocks are stored in `report`, of 55 words, and its whole list is
 * applied to `bank`, of 82 words.
 * Returns as clock_plan does, and 2 for a bank of another length. A refused call leaves `report` and `bank` as they were. */
uint32_t clock_plan_bank(const uint8_t *request, uint64_t request_length, const uint8_t *chip, uint64_t chip_length, uint32_t *report,
                         uint64_t report_length, uint32_t *bank, uint64_t bank_length);

/* Plans a request; the registers of its PLLs are stored in `words`, of 9 words: CFGR, DIVR, FRACR of PLL1, of PLL2, of PLL3. On a chip with two
 * PLLs the last three stay as they were. The bits, by RM0492:
 * CFGR: source in 0-1 (1 HSI, 3 HSE), RGE in 2-3, FRACEN 4, VCOSEL 5 (1 medium), M in 8-13, the enables of P, Q, R at 16, 17, 18;
 * DIVR: N - 1 in 0-8, P - 1 in 9-15, Q - 1 in 16-22, R - 1 in 24-30;
 * FRACR: FRACN in 3-15.
 * All other bits, and a divider that is not enabled, are 0. A PLL with no output requested has its source bits alone.
 * Returns as clock_plan does, and 1 for `words` of another length. A refused call leaves `words` as it was. */
uint32_t clock_pll_registers(const uint8_t *request, uint64_t request_length, const uint8_t *chip, uint64_t chip_length, uint32_t *words,
                             uint64_t words_length);

/* Walks over the list of a request. Each step takes two words of `reads`: the values read for the first and the second field of the entry
 * shown. What is shown before the first step and after each is stored in `shown`, nine words each: an entry; nine 0 for finished; 5 and the
 * refusal's number for a refusal. A refused request shows its refusal from the start, stored like anything shown.
 * Returns how many are stored: the lesser of reads_length / 2 + 1 and shown_length / 9. The words after them stay as they were. */
uint64_t clock_walk(const uint8_t *request, uint64_t request_length, const uint8_t *chip, uint64_t chip_length, const uint32_t *reads,
                    uint64_t reads_length, uint32_t *shown, uint64_t shown_length);

/* Walks to a voltage scale, 0 to 3, likewise: wait ACTVOSRDY, read ACTVOS, and if it is not the target's code set VOS and wait VOSRDY.
 * A read has kind 4. Another target shows refusal 1 from the start.
 * Returns as clock_walk does. */
uint64_t clock_voltage_walk(uint32_t target, const uint32_t *reads, uint64_t reads_length, uint32_t *shown, uint64_t shown_length);

/* Says why the chip was reset, by the RCC_RSR word as read. Stored in `out`, of three words: the reason, the word as read, and the word to
 * write back to clear the flags. Reasons: 0 power-on, 1 pin, 2 system, 3 window watchdog, 4 independent watchdog, 5 either watchdog,
 * 6 illegal stop entry, 7 unknown.
 * Returns 0, or 1 for a PLL count that is not 2 or 3 or an `out` of another length, which leaves `out` as it was. */
uint32_t clock_reset_reason(uint32_t plls, uint32_t word, uint32_t *out, uint64_t out_length);

/* Chooses the settings of one PLL for a source in hertz. `part` is the PLL's 16 bytes of a request: the strategy, 0 or 1, then P, Q and R
 * as a byte 0 or 1 and the hertz in 4 bytes, low byte first. `odd` is 1 where P may divide by an odd number, else 0. Stored in `out`, of 18
 * words: VCOSEL, target, M, reference, RGE (its code, 0 to 3, as in a bank), N, FRACEN, FRACN, VCO, then for P, Q and R 0 or 1, the divider
 * and the hertz. A PLL with nothing requested has eighteen 0.
 * Returns 0, or the refusal's number: 6 to 11 or 13 to 15, and 1 for an `odd`, `part` or `out` of another kind or length. A refused call
 * leaves `out` as it was. */
uint32_t clock_pll(uint32_t odd, uint32_t source, const uint8_t *part, uint64_t part_length, uint32_t *out, uint64_t out_length);

/* Returns FRACN, 0 to 8191, for an output in hertz behind a divider, by the reference in hertz and N; 8192 where it is out of range. */
uint32_t clock_fracn(uint32_t reference, uint32_t n, uint32_t output, uint32_t divider);

/* Returns the VCO in hertz in Fractional, by the reference in hertz, N and FRACN; 0 for a FRACN above 65535. */
uint32_t clock_vco(uint32_t reference, uint32_t n, uint32_t fracn);

/* Returns latency + 8 x delay for AHB in hertz and a voltage scale; 255 for 0 Hz or a scale above 3. */
uint32_t clock_flash(uint32_t ahb, uint32_t scale);

/* The AHB divisor and clock for a system clock, in hertz. The requested clock is `set` 0 for unset, and then `hertz` is not looked at, or
 * `set` 1 and the hertz. Stored in `out`, of two words: the divisor and the clock.
 * Returns 0, or the refusal's number: 18 or 19, and 1 for another `set` or an `out` of another length. A refused call leaves `out` as it
 * was. */
uint32_t clock_ahb(uint32_t system, uint32_t set, uint32_t hertz, uint32_t *out, uint64_t out_length);

/* An APB divisor and clock for an AHB clock, likewise; the refusal is 18. */
uint32_t clock_apb(uint32_t hclk, uint32_t set, uint32_t hertz, uint32_t *out, uint64_t out_length);

/* Returns the timer clock in hertz for an AHB clock and an APB divisor: AHB / 2, / 4, / 8 under 4, 8, 16, and AHB under any other number, 1
 * and 2 as well as those that no register has. */
uint32_t clock_timer(uint32_t hclk, uint32_t ppre);

/* A clock output's prescaler and clock for the clock of its source; `set` and `hertz` are the requested clock, as for clock_ahb. Stored in
 * `out`, of three words: the prescaler, 0 or 1, the hertz.
 * Returns 0, or the refusal's number: 22 or 23, and 1 as clock_ahb does. A refused call leaves `out` as it was. */
uint32_t clock_mco(uint32_t clock, uint32_t set, uint32_t hertz, uint32_t *out, uint64_t out_length);

#ifdef __cplusplus
}
#endif

#endif
