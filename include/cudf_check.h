/*
 * cudf_check: checks answers to CUDF 2.0 upgrade problems, for C and C++.
 *
 * One call, `cudf_check_run`, does what the program's command line does, on documents in memory. It returns the program's
 * exit status:
 *
 *     0  the answer is a solution; lint: the problem is valid; rank: at least one answer is a solution; cnf: it was made;
 *        refute: the proof holds; help or the version was asked for
 *     1  the answer isn't a solution; rank: none is one, and not all say FAIL; refute: the proof has an error
 *     2  a document is malformed
 *     3  the answer says FAIL; rank: all do
 *     4  the words ask for nothing: the text says why
 *     5  a document is longer than 256 MiB (268435456 bytes); cnf and refute: the CNF has more than 4294967295 clauses or
 *        2147483647 variables
 *     6  out of memory
 *
 * Status 4 comes before 5. That a document is too long is known by its length, before a byte of any is read; that a CNF is
 * too large, when its clauses are counted.
 *
 * What the program prints is written to your buffer `text` of `room` bytes, as far as it fits: the report, or with status 4
 * the message. `*length` is the length of the whole text. If that is more than `room`, the text was cut: call again with a
 * larger buffer. The rest of the buffer is unchanged. With status 5 and 6 all of it is, and `*length` is 0. A text is UTF-8
 * in lines that end with LF, without a NUL after it.
 *
 * Texts of yours have a length, and need no NUL. A null text is empty, a null buffer has no room, and a null array has no
 * elements, whatever length is passed with it. `length` must not be null. With `room` 0 a call returns only its status and
 * the text's length. The buffer and `*length` must not overlap each other or a text.
 *
 * Nothing is kept between calls: any number of threads may call at once. Memory comes from malloc and is freed before a
 * call returns. The report takes none: what doesn't fit is only counted. `cnf` and `refute` hold the CNF's clauses, which
 * can take far more memory and time than the problem: bound both for problems that you don't know. Don't call from a signal
 * handler, or in a child that was forked from a process with several threads.
 *
 * docs/FORMAT.md and docs/RULES.md of cudf_check describe commands, options and reports.
 */
#ifndef CUDF_CHECK_H
#define CUDF_CHECK_H

#include <stddef.h>
#include <stdint.h>
#include <string.h>

/* The version of this header, also as a number for `#if`. The word `--version` gives the library's. */
#define CUDF_CHECK_VERSION "1.0.0"
#define CUDF_CHECK_VERSION_NUMBER 10000 /* 10000 * major + 100 * minor + patch */

/* The exit statuses of the program, which the call returns. */
#define CUDF_CHECK_YES 0
#define CUDF_CHECK_NO 1
#define CUDF_CHECK_FAULTY 2
#define CUDF_CHECK_FAIL 3
#define CUDF_CHECK_USAGE 4
#define CUDF_CHECK_UNREAD 5
#define CUDF_CHECK_MEMORY 6

/* The greatest length of a document, in bytes. */
#define CUDF_CHECK_LONGEST 268435456

#ifdef __cplusplus
extern "C" {
#endif

/* A text of yours, made by `cudf_check_text_of` or `cudf_check_word`: its bytes, which are never null, and their number. */
typedef struct cudf_check_text {
    const uint8_t *bytes;
    size_t length;
} cudf_check_text;

/* A document, made by `cudf_check_document_of`, and its name, which lines begin with if the word `-H` is given. A document
   whose name is empty has none. */
typedef struct cudf_check_document {
    cudf_check_text text, name;
} cudf_check_document;

/*
 * Does what the program does for these words of its command line, in UTF-8, such as `check`, `--explain`, `--limit=3`. The
 * words don't name files: the documents stand in their place, in their order, the problem first. So `check` takes a problem
 * and a solution, or one document that holds both; `rank`, which needs `--criteria=LIST`, a problem and all solutions. One
 * word can name a file: for that of `--better-than=NAME` the last document stands, whatever the name.
 */
uint8_t cudf_check_run(const cudf_check_text *words, size_t word_count, const cudf_check_document *documents,
                       size_t document_count, uint8_t *text, size_t room, size_t *length);

static inline cudf_check_text cudf_check_text_of(const void *bytes, size_t length)
{
    static const uint8_t none = 0;
    cudf_check_text text;
    text.bytes = bytes ? (const uint8_t *)bytes : &none;
    text.length = bytes ? length : 0;
    return text;
}

/* A text that ends before its NUL. */
static inline cudf_check_text cudf_check_word(const char *word)
{
    return cudf_check_text_of(word, word ? strlen(word) : 0);
}

/* A document without a name. */
static inline cudf_check_document cudf_check_document_of(const void *bytes, size_t length)
{
    cudf_check_document document;
    document.text = cudf_check_text_of(bytes, length);
    document.name = cudf_check_text_of(NULL, 0);
    return document;
}

/*
 * What a C compiler calls by the name above: it replaces null pointers, which the library doesn't take. If you call it
 * without this header, as from another language, pass no null pointers.
 */
static inline uint8_t cudf_check_call(const cudf_check_text *words, size_t word_count,
                                      const cudf_check_document *documents, size_t document_count, void *text, size_t room,
                                      size_t *length)
{
    static const cudf_check_text no_word = {0, 0};
    static const cudf_check_document no_document = {{0, 0}, {0, 0}};
    static uint8_t no_room;
    return cudf_check_run(words ? words : &no_word, words ? word_count : 0, documents ? documents : &no_document,
                          documents ? document_count : 0, text ? (uint8_t *)text : &no_room, text ? room : 0, length);
}
#define cudf_check_run cudf_check_call

#ifdef __cplusplus
}
#endif

#endif
