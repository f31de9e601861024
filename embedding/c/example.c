/*
 * cudf_check from C99: checks an answer and a malformed problem, both explained; counts and ranks;
 * makes a CNF, and checks proofs that there is no solution, or no better one; goes through a report by pages. Prints
 * embedding/expected.txt.
 *
 *     cc -std=c99 -Iinclude embedding/c/example.c lib/libcudf_check.a -o example
 */
#include "cudf_check.h"

#include <stdbool.h>
#include <stdio.h>
#include <stdlib.h>
#include <string.h>

/* car 1 is installed and needs a newer wheel than the one that is installed with it */
static const char problem[] = "package: car\nversion: 1\ndepends: wheel > 2\ninstalled: true\n\n"
                              "package: wheel\nversion: 2\ninstalled: true\n\n"
                              "package: wheel\nversion: 3\n\n"
                              "request: no upgrade\ninstall: car\n";
static const char old_wheel[] = "package: car\nversion: 1\ninstalled: true\n\n"
                                "package: wheel\nversion: 2\ninstalled: true\n";
static const char new_wheel[] = "package: car\nversion: 1\ninstalled: true\n\n"
                                "package: wheel\nversion: 3\ninstalled: true\n";
static const char both_wheels[] = "package: car\nversion: 1\ninstalled: true\n\n"
                                  "package: wheel\nversion: 2\ninstalled: true\n\n"
                                  "package: wheel\nversion: 3\ninstalled: true\n";
static const char faulty[] = "package: car\nversion: one\n\nrequest:\n";
/* no wheel is new enough; and what a SAT solver may say of the CNF */
static const char unsolvable[] = "package: car\nversion: 1\ndepends: wheel > 2\n\n"
                                 "package: wheel\nversion: 2\n\n"
                                 "request:\ninstall: car\n";
static const char proof[] = "3 0 2 1 0\n";

enum { PACKAGES = 10000, LINES = 1000 };

static void *ample(void *memory)
{
    if (!memory) {
        fputs("out of memory\n", stderr);
        exit(EXIT_FAILURE);
    }
    return memory;
}

/* What a call left: its status, and its text with a NUL after it, which is to be freed. */
struct answer {
    int status;
    char *text;
    size_t length;
};

#define LIST(...) ((const char *[]){__VA_ARGS__, NULL})
enum { MOST = 8, ROOM = 1 << 16 };

/* Makes a call with a buffer for its text, and again with a larger one if that was too small. */
static struct answer run(const char *const *words, const char *const *texts)
{
    cudf_check_text line[MOST];
    cudf_check_document documents[MOST];
    size_t word_count = 0, document_count = 0, room = ROOM;
    struct answer answer = {0, ample(malloc(room + 1)), 0};
    for (; words[word_count]; word_count++)
        line[word_count] = cudf_check_word(words[word_count]);
    for (; texts[document_count]; document_count++)
        documents[document_count] = cudf_check_document_of(texts[document_count], strlen(texts[document_count]));

    answer.status = cudf_check_run(line, word_count, documents, document_count, answer.text, room, &answer.length);
    if (answer.length > room) {
        room = answer.length;
        answer.text = ample(realloc(answer.text, room + 1));
        answer.status = cudf_check_run(line, word_count, documents, document_count, answer.text, room, &answer.length);
    }
    answer.text[answer.length] = '\0';
    return answer;
}

static void print(const char *job, const char *const *words, const char *const *texts)
{
    struct answer answer = run(words, texts);
    printf("\n%s: status %d\n%s", job, answer.status, answer.text);
    free(answer.text);
}

static void print_fault(const char *job, const char *const *words, const char *const *texts)
{
    char whose[16], kind[8], text[64];
    unsigned long line;
    struct answer answer = run(words, texts);
    if (sscanf(answer.text, "%15s line %lu: %7s %63[^\n]", whose, &line, kind, text) == 4)
        printf("\n%s: status %d, %s on line %lu of the %s: %s\n", job, answer.status, kind, line, whose, text);
    free(answer.text);
}

/* A problem of packages that are installed and need what isn't there. As its own answer it is no solution. */
static char *broken(int count)
{
    static const char form[] = "package: p%d\nversion: 1\ndepends: none\ninstalled: true\n\n", request[] = "request:\n";
    char *text = ample(malloc((size_t)count * (sizeof form + 10) + sizeof request)), *end = text;
    for (int number = 1; number <= count; number++)
        end += sprintf(end, form, number);
    strcpy(end, request);
    return text;
}

/* Whether the pages of a listing, without the ends of all but the last of them, are the whole report. */
static bool is_whole_by_pages(const char *text, int *pages)
{
    static const char more[] = "\nmore after ";
    struct answer whole = run(LIST("check"), LIST(text, text));
    char limit[32], after[64] = "";
    const char *rest = whole.text, *end;
    bool is_same = true;
    snprintf(limit, sizeof limit, "--limit=%d", LINES);
    *pages = 0;
    do {
        struct answer page = run(*after ? LIST("check", limit, after) : LIST("check", limit), LIST(text, text));
        ++*pages;
        end = strstr(page.text, more);
        size_t shown = end ? (size_t)(end + 1 - page.text) : page.length;
        is_same = is_same && strncmp(rest, page.text, shown) == 0;
        rest += is_same ? shown : 0;
        if (end)
            snprintf(after, sizeof after, "--after=%.*s", (int)strcspn(end + strlen(more), "\n"), end + strlen(more));
        free(page.text);
    } while (end);
    is_same = is_same && *rest == '\0';
    free(whole.text);
    return is_same;
}

int main(void)
{
    struct answer version = run(LIST("--version"), LIST(NULL));
    fputs(version.text, stdout);
    free(version.text);
    print("check", LIST("check", "--explain"), LIST(problem, old_wheel));
    print_fault("lint", LIST("lint", "--explain"), LIST(faulty));
    print("score", LIST("score"), LIST(problem, new_wheel));
    print("rank", LIST("rank", "--criteria=-changed,-touched"), LIST(problem, old_wheel, both_wheels, new_wheel));
    print("cnf", LIST("cnf"), LIST(unsolvable));
    print("refute", LIST("refute"), LIST(unsolvable, proof));
    /* an answer that removes nothing can't be bettered: the proof isn't needed */
    print("better", LIST("refute", "--better-than=answer", "--criteria=-removed"), LIST(problem, "", new_wheel));

    char *many = broken(PACKAGES);
    int pages;
    bool is_same = is_whole_by_pages(many, &pages);
    printf("\npages: %d of at most %d lines, which together %s the report of %d\n", pages, LINES,
           is_same ? "are" : "aren't", PACKAGES);
    free(many);
    return EXIT_SUCCESS;
}
