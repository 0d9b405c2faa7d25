/*
 * Mistakes at a call that gcc sees by cartsundial.h's declarations: one for each MISTAKE, with the warning for it, and none for 0.
 * examples/c/run compiles each.
 */
#include "cartsundial.h"

uint32_t mistaken(void);

uint8_t bytes[100], sheet[CARTSUNDIAL_SHEET_BYTES];
uint64_t numbers[CARTSUNDIAL_LEDGER_NUMBERS], written[1];

uint32_t mistaken(void)
{
#if MISTAKE == 1   /* nonnull */
    return cartsundial_check(NULL, 0);
#elif MISTAKE == 2 /* restrict */
    return cartsundial_plan(sheet, sizeof bytes, sheet, sizeof sheet, written, 1);
#elif MISTAKE == 3 /* stringop-overflow= */
    return cartsundial_plan(sheet, sizeof sheet, bytes, sizeof sheet, written, 1);
#elif MISTAKE == 4 /* stringop-overread */
    return cartsundial_check(bytes, sizeof sheet);
#elif MISTAKE == 5 /* stringop-overread */
    /* bytes where the length is in numbers */
    return cartsundial_ledger_count(numbers, sizeof numbers, written, 1);
#elif MISTAKE == 6 /* stringop-overflow= */
    return cartsundial_ledger_open(numbers, sizeof numbers, bytes, 12);
#elif MISTAKE == 7 /* unused-result */
    cartsundial_command(sheet, sizeof sheet, 0, 0);
    return 0;
#elif MISTAKE == 8 /* maybe-uninitialized */
    uint64_t ledger[CARTSUNDIAL_LEDGER_NUMBERS];
    return cartsundial_ledger_open(ledger, CARTSUNDIAL_LEDGER_NUMBERS, bytes, 12);
#else
    uint64_t answer[CARTSUNDIAL_ROUTE_NUMBERS];
    uint32_t number = cartsundial_plan(bytes, sizeof bytes, sheet, sizeof sheet, written, 1);
    /* one slice twice is no mistake where both are only read */
    number += cartsundial_audit(sheet, CARTSUNDIAL_HOST_BYTES, sheet, (size_t)written[0]);
    return number + cartsundial_route(bytes, 12, sheet, (size_t)written[0], answer, CARTSUNDIAL_ROUTE_NUMBERS);
#endif
}
