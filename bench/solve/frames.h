// The inputs of stored frames: a file of records of 83 big-endian words, of which the first 18 are
// what a solve takes (reference/README.md, frame).
#include <stdint.h>
#include <stdio.h>
#include <string.h>

enum { RECORD = 8 * 83 };

// Reads the next record's input; 0 at the end of the file.
static int next_input(FILE *file, double input[18]) {
    unsigned char record[RECORD];
    if (fread(record, RECORD, 1, file) != 1)
        return 0;
    for (int i = 0; i < 18; i++) {
        uint64_t word = 0;
        for (int k = 0; k < 8; k++)
            word = word << 8 | record[8 * i + k];
        memcpy(&input[i], &word, sizeof word);
    }
    return 1;
}
