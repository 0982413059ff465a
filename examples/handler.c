/* A handler of the test floor: reads a job from standard input and writes its listing. */
#include <stdio.h>

#include "harvest.h"

static uint8_t job[60001];
static uint8_t lines[65536];

int main(void)
{
    size_t length = fread(job, 1, sizeof job, stdin);
    int64_t answer = harvest_listing(job, length, lines, sizeof lines);
    if (answer < 0) {
        fprintf(stderr, "refused: %d\n", (int)-answer);
        return 1;
    }
    return fwrite(lines, 1, (size_t)answer, stdout) == (size_t)answer ? 0 : 1;
}
