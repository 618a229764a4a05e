/* The calls of the proved library for C. Link with libcapi.a. */
#ifndef NISZORGY_H
#define NISZORGY_H

#include <stdint.h>

#ifdef __cplusplus
extern "C" {
#endif

/* The charge of one block of one member under the house pile, in paise: positive is payable to the
 * pool, negative receivable, always within 100,000,000 either way.
 *
 *   kind       1 buyer, 2 seller, 3 solar or wind
 *   scheduled  kWh, 0 to 100,000
 *   metered    kWh, 0 to 100,000
 *   available  kWh, 1 to 100,000 for kind 3, 0 for kinds 1 and 2
 *   frequency  hundredths of a hertz, 4,800 to 5,200
 *   price      tenths of a paisa per kWh, 0 to 8,000
 *
 * Answers NISZORGY_UNKNOWN_KIND for a kind outside 1 to 3, else NISZORGY_OUTSIDE_LIMIT for another
 * number outside its limits, else the charge. Any numbers may be passed; nothing is altered. */
int64_t niszorgy_house_charge(int64_t kind, int64_t scheduled, int64_t metered,
                              int64_t available, int64_t frequency, int64_t price);

#define NISZORGY_UNKNOWN_KIND INT64_C(1000000003)
#define NISZORGY_OUTSIDE_LIMIT INT64_C(1000000004)

#ifdef __cplusplus
}
#endif

#endif
