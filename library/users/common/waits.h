/*
 * Counts the calls in one piece that had to wait for another machine, most of them for a pause. The tests name this
 * file by -include, before all else, so that what waits calls the function below.
 */
#ifndef WAITS_H
#define WAITS_H

#include <stdint.h>

void waits_back_off(uint32_t *rounds);

#define CVM_BACK_OFF(rounds) waits_back_off(rounds)

#endif
