/* Priors of probabilities, by the proved call: standard input has the 64 bits of a probability in hexadecimal on each line, and
 * standard output the prior's, or 'refused NUMBER PLACE', where the place counts lines from 0.
 *
 * Made and run by tools/priors. The exit status is 1 if a line is none of that, or can't be read or written. */
#include "chowderkite.h"

#include <stdio.h>
#include <string.h>

enum { DIGITS = 16 };

/* The bits that a line says. It has 16 hexadecimal digits and a newline, and nothing else. */
static int bits_of(const char *line, uint64_t *bits) {
    size_t i;
    if (strlen(line) != DIGITS + 1 || line[DIGITS] != '\n') {
        return 0;
    }
    *bits = 0;
    for (i = 0; i < DIGITS; i += 1) {
        const char *digits = "0123456789abcdef", *digit = strchr(digits, line[i]);
        if (digit == NULL) {
            return 0;
        }
        *bits = *bits * 16 + (uint64_t)(digit - digits);
    }
    return 1;
}

int main(void) {
    char line[DIGITS + 3];
    size_t number = 0;
    if (chowderkite_version() != CHOWDERKITE_VERSION) {
        fprintf(stderr, "priors: the archive is of another version\n");
        return 1;
    }
    while (fgets(line, sizeof line, stdin) != NULL) {
        uint64_t bits, code;
        double probability, prior[1];
        int64_t scaled[1];
        if (!bits_of(line, &bits)) {
            fprintf(stderr, "priors: line %zu is not 16 hexadecimal digits\n", number);
            return 1;
        }
        memcpy(&probability, &bits, sizeof bits);
        code = chowderkite_prior_of(probability, number, prior, scaled);
        if (code == CHOWDERKITE_DONE) {
            memcpy(&bits, prior, sizeof bits);
            printf("%016llx\n", (unsigned long long)bits);
        } else {
            printf("refused %llu %llu\n", (unsigned long long)chowderkite_number_of(code),
                   (unsigned long long)chowderkite_place_of(code));
        }
        number += 1;
    }
    if (ferror(stdin) || fflush(stdout) != 0) {
        fprintf(stderr, "priors: can't read or write\n");
        return 1;
    }
    return 0;
}
