/* Asks the house pile for one block:
 *
 *   house_charge KIND SCHEDULED METERED AVAILABLE FREQUENCY PRICE
 *
 * Built and run from the top of the repository by
 *
 *   (cd crates/capi && rt lib)
 *   cc -O2 -Wall -Wextra -Iinclude -o crates/capi/out/house_charge examples/c/house_charge.c crates/capi/out/libcapi.a
 *   crates/capi/out/house_charge 2 20000 17000 0 4980 4000
 */
#include <inttypes.h>
#include <stdio.h>
#include <stdlib.h>

#include "niszorgy.h"

int main(int argc, char **argv)
{
    int64_t number[6];
    int64_t answer;
    int i;

    if (argc != 7) {
        fprintf(stderr, "usage: %s KIND SCHEDULED METERED AVAILABLE FREQUENCY PRICE\n", argv[0]);
        return 2;
    }
    for (i = 0; i < 6; i++) {
        char *end;
        number[i] = strtoll(argv[i + 1], &end, 10);
        if (end == argv[i + 1] || *end != '\0') {
            fprintf(stderr, "%s: not a number: %s\n", argv[0], argv[i + 1]);
            return 2;
        }
    }
    answer = niszorgy_house_charge(number[0], number[1], number[2], number[3], number[4], number[5]);
    if (answer == NISZORGY_UNKNOWN_KIND) {
        puts("refused: the kind is none of 1, 2 and 3");
    } else if (answer == NISZORGY_OUTSIDE_LIMIT) {
        puts("refused: a number is outside its limits");
    } else {
        printf("%" PRId64 " paise\n", answer);
    }
    return 0;
}
