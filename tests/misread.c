/* The loader that takes a refusal for a bound of zero. It must not compile (.ci/users-c). */
#include <stdio.h>
#include <stdlib.h>
#include "tickbound.h"
int main(int argc, char **argv) {
    static unsigned char text[32769], report[128];
    FILE *file = fopen(argv[argc - 1], "rb");
    int len = tickbound_bound(text, file == NULL ? 0 : fread(text, 1, sizeof text, file), report, sizeof report);
    long cycles = len >= 0 ? atol((char *)report + 36) : -1;
    if (len >= 0 && cycles <= 1000) printf("len %d cycles %ld -> LOAD\n", len, cycles);
    return 0;
}
