// Solves the first thousand stored frames, which are realistic plates, over and over: for a
// profiler.
//   repeat FRAMES TIMES
#include "../../include/p3p.h"
#include "frames.h"
#include <stdlib.h>

int main(int argc, char **argv) {
    static double inputs[1000][18], poses[48];
    uint32_t updates[4], lifted[4], count;
    unsigned long found = 0;
    int frames = 0;
    FILE *file = argc == 3 ? fopen(argv[1], "rb") : NULL;
    if (!file) {
        fprintf(stderr, "usage: repeat FRAMES TIMES\n");
        return 1;
    }
    while (frames < 1000 && next_input(file, inputs[frames]))
        frames++;
    for (int turn = atoi(argv[2]); turn > 0; turn--)
        for (int i = 0; i < frames; i++)
            if (p3p_solve(inputs[i], poses, updates, lifted, &count) == 0)
                found += count;
    printf("%lu poses\n", found);
    return 0;
}
