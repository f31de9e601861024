/* Calls the library, and has a global name that its inside has too. For packages.py. */
#include <cudf_check.h>
#include <stdio.h>

int rattle_alloc = 1;

static uint8_t show(const char *word, const cudf_check_document *documents, size_t count)
{
    const cudf_check_text words[] = {cudf_check_word(word)};
    uint8_t report[64];
    size_t length;
    uint8_t status = cudf_check_run(words, 1, documents, count, report, sizeof report, &length);
    fwrite(report, 1, length, stdout);
    return status;
}

int main(void)
{
    const cudf_check_document problem = cudf_check_document_of("request:\n", 9);
    return show("lint", &problem, 1) + show("--version", NULL, 0) + rattle_alloc - 1;
}
