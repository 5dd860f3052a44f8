/* Lists the records of standard input: of each how many poses it has and the best, or the refusal.
 *
 *   cc -O2 -Iinclude include/records.c crates/p3p/out/libp3p.a -lm -o target/records
 *   target/records < samples/frames.bin
 */
#include "p3p.h"
#include <math.h>
#include <stdio.h>

static const double degrees = 57.29577951308232;

static void list_frame(unsigned long number, const double frame[24])
{
    double poses[48], score;
    uint32_t updates[4], lifted[4], count, best;
    uint32_t refusal = p3p_solve(frame, poses, updates, lifted, &count);
    if (refusal != 0) {
        printf("%lu refused %u\n", number, refusal);
        return;
    }
    refusal = p3p_choose(poses, count, frame + 18, frame + 21, &best, &score);
    if (refusal != 0)
        printf("%lu poses %u, choice refused %u\n", number, count, refusal);
    else
        printf("%lu poses %u, best %u%s, checking target %.6f degrees off its bearing\n", number,
               count, best, lifted[best - 1] ? " (lifted)" : "", atan(sqrt(score)) * degrees);
}

/* Lists one record after another; 1 where it has to stop within the input. */
static int list_records(void)
{
    uint8_t record[P3P_RECORD_SIZE];
    double frame[24];
    size_t length;
    unsigned long number = 0;
    while ((length = fread(record, 1, sizeof record, stdin)) != 0) {
        uint32_t refusal = p3p_read_record(record, length, frame);
        number++;
        if (refusal == 0)
            list_frame(number, frame);
        else
            printf("%lu refused %u\n", number, refusal);
        /* After 8, a record of another version, the next one follows; after 7 and 9 nobody knows
         * where it begins. */
        if (refusal == P3P_RECORD_LENGTH || refusal == P3P_RECORD_CUT_SHORT)
            return 1;
    }
    return 0;
}

/* Says what could not be done, and why; the program's exit status. */
static int failed(const char *what)
{
    perror(what);
    return 1;
}

int main(void)
{
    int status = list_records();
    if (ferror(stdin))
        status = failed("records: cannot read the input");
    if (fflush(stdout) != 0 || ferror(stdout))
        status = failed("records: cannot write the listing");
    return status;
}
