/* Prints the fixed text of the job on standard input and its layout, and checks the layout: what the programs `house`, `route` and `check`
 * print, one behind the other. A refused job is told once. */
#include <stdio.h>

#include "hankuribo.h"

int main(void)
{
    /* one byte more than a job may have, so that a job too long is seen */
    static uint8_t job[HANKURIBO_MOST_BYTES + 1];
    static uint8_t fixed[HANKURIBO_MOST_BYTES];
    static uint8_t layout[HANKURIBO_MOST_BYTES];
    size_t job_length = fread(job, 1, sizeof job, stdin);
    size_t line, bytes, broken;

    size_t number = hankuribo_house(job, job_length, fixed, sizeof fixed, &line, &bytes);
    if (number != HANKURIBO_NOT_REFUSED) {
        printf("(refused %zu %zu)\n", number, line);
        return 0;
    }
    fwrite(fixed, 1, bytes, stdout);

    number = hankuribo_route(job, job_length, layout, sizeof layout, &line, &bytes);
    if (number != HANKURIBO_NOT_REFUSED) {
        printf("(refused %zu %zu)\n", number, line);
        return 0;
    }
    fwrite(layout, 1, bytes, stdout);

    number = hankuribo_check(job, job_length, layout, bytes, &line, &broken);
    if (number != HANKURIBO_NOT_REFUSED)
        printf("(refused %zu %zu)\n", number, line);
    else if (broken)
        printf("(broken %zu)\n", line);
    else
        printf("(sound)\n");
    return 0;
}
