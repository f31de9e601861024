/* Times calls of the library, for measure.py calls.

usage: calls PROBLEM SOLUTION COUNT

Prints the nanoseconds that COUNT calls of `check` took, each with a buffer that is there already. */
#define _POSIX_C_SOURCE 199309L
#include "cudf_check.h"

#include <stdio.h>
#include <stdlib.h>
#include <time.h>

struct text {
    uint8_t bytes[1 << 16];
    size_t length;
};

static void read_text(const char *name, struct text *text)
{
    FILE *file = fopen(name, "rb");
    if (!file)
        exit(EXIT_FAILURE);
    text->length = fread(text->bytes, 1, sizeof text->bytes, file);
    fclose(file);
}

static long long now(void)
{
    struct timespec time;
    clock_gettime(CLOCK_MONOTONIC, &time);
    return time.tv_sec * 1000000000LL + time.tv_nsec;
}

int main(int count, char **words)
{
    static struct text problem, solution, report;
    if (count != 4)
        return EXIT_FAILURE;
    read_text(words[1], &problem);
    read_text(words[2], &solution);
    const cudf_check_text check = cudf_check_word("check");
    const cudf_check_document documents[] = {cudf_check_document_of(problem.bytes, problem.length),
                                             cudf_check_document_of(solution.bytes, solution.length)};
    long long begun = now();
    for (long left = strtol(words[3], NULL, 10); left > 0; left--)
        if (cudf_check_run(&check, 1, documents, 2, report.bytes, sizeof report.bytes, &report.length) != CUDF_CHECK_NO)
            return EXIT_FAILURE;
    printf("%lld\n", now() - begun);
    return EXIT_SUCCESS;
}
