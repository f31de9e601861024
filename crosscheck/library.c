/* Makes calls of cudf_check.h for library.py.

usage: library FILE [peak | THREADS CALLS STACK]

FILE has requests, one after the other, in numbers of 64 bits as the machine has them: whether the buffer is null, its
room, how many words and documents there are, and then the words, the documents and their names, each a kind, a length
and, if it is WRITTEN, bytes. A text of ZEROES has that many bytes 0. Of NOTHING the pointer is null, of CLAIMED there is
one byte, whatever the length. Of UNREADABLE there are all bytes, and a read of any ends the process. Where there are no
words or no documents, the array is null, and the call is given a count of three.

For each request its answer is written in the same way: the status, the length that the call returned, and the buffer
with GUARD bytes after its room, or nothing if it is null. All its bytes were PATTERN before the call.

With `peak` the most memory that the process has held, in KB, is written to standard error.

With THREADS the requests are answered once, and then CALLS times by so many threads at once, whose stacks have STACK
bytes, or the usual ones if that is 0. Only the number of these answers that differ is written.

The status is 70 if FILE can't be opened, or if memory for a request is refused before its call. For Linux. */
#define _DEFAULT_SOURCE
#include "cudf_check.h"

#include <pthread.h>
#include <stdbool.h>
#include <stdio.h>
#include <stdlib.h>
#include <string.h>
#include <sys/mman.h>

enum { WRITTEN, ZEROES, NOTHING, CLAIMED, UNREADABLE };
enum { GUARD = 64, PATTERN = 0xa5, REFUSED = 70 };

struct text {
    uint64_t kind;
    uint8_t *bytes;
    size_t length;
};

struct request {
    uint64_t is_null, room, word_count, count;
    struct text *texts; /* words, documents, names */
    cudf_check_text *words;
    cudf_check_document *documents;
};

/* What a call left. The buffer has GUARD bytes more than the room that the call was given. */
struct answer {
    uint64_t status;
    size_t length, size;
    uint8_t *buffer;
};

static void *taken(size_t size)
{
    void *memory = calloc(1, size ? size : 1);
    if (!memory)
        exit(REFUSED);
    return memory;
}

static bool read_number(FILE *file, uint64_t *number)
{
    return fread(number, sizeof *number, 1, file) == 1;
}

static void *unreadable(size_t size)
{
    void *memory = mmap(NULL, size, PROT_NONE, MAP_PRIVATE | MAP_ANONYMOUS | MAP_NORESERVE, -1, 0);
    if (memory == MAP_FAILED)
        exit(REFUSED);
    return memory;
}

/* Each text has a block of its own, so that a sanitizer knows where it ends. */
static void read_text(FILE *file, struct text *text)
{
    uint64_t length;
    if (!read_number(file, &text->kind) || !read_number(file, &length))
        abort();
    text->length = (size_t)length;
    if (text->kind == NOTHING)
        text->bytes = NULL;
    else if (text->kind == UNREADABLE)
        text->bytes = unreadable(text->length);
    else
        text->bytes = taken(text->kind == CLAIMED ? 1 : text->length);
    if (text->kind == WRITTEN && fread(text->bytes, 1, text->length, file) != text->length)
        abort();
}

static cudf_check_text text_of(const struct text *text)
{
    return cudf_check_text_of(text->bytes, text->length);
}

static bool read_request(FILE *file, struct request *request)
{
    if (!read_number(file, &request->is_null))
        return false;
    if (!read_number(file, &request->room) || !read_number(file, &request->word_count) || !read_number(file, &request->count))
        abort();
    size_t texts = request->word_count + 2 * request->count;
    request->texts = taken(texts * sizeof *request->texts);
    for (size_t at = 0; at < texts; at++)
        read_text(file, &request->texts[at]);
    const struct text *documents = request->texts + request->word_count, *names = documents + request->count;
    request->words = request->word_count ? taken(request->word_count * sizeof *request->words) : NULL;
    for (size_t at = 0; at < request->word_count; at++)
        request->words[at] = text_of(&request->texts[at]);
    request->documents = request->count ? taken(request->count * sizeof *request->documents) : NULL;
    for (size_t at = 0; at < request->count; at++) {
        request->documents[at].text = text_of(&documents[at]);
        request->documents[at].name = text_of(&names[at]);
    }
    return true;
}

static void drop_request(struct request *request)
{
    for (uint64_t at = 0; at < request->word_count + 2 * request->count; at++) {
        const struct text *text = &request->texts[at];
        if (text->kind == UNREADABLE)
            munmap(text->bytes, text->length);
        else
            free(text->bytes);
    }
    free(request->texts);
    free(request->words);
    free(request->documents);
}

static void call(const struct request *request, struct answer *answer)
{
    size_t room = request->room;
    answer->size = request->is_null ? 0 : room + GUARD;
    answer->buffer = request->is_null ? NULL : taken(answer->size);
    answer->length = SIZE_MAX;
    if (answer->buffer)
        memset(answer->buffer, PATTERN, answer->size);
    answer->status = cudf_check_run(request->words, request->words ? request->word_count : 3, request->documents,
                                    request->documents ? request->count : 3, answer->buffer, room, &answer->length);
}

static void write_answer(const struct answer *answer)
{
    uint64_t numbers[] = {answer->status, answer->length, answer->size};
    fwrite(numbers, sizeof numbers, 1, stdout);
    if (answer->size)
        fwrite(answer->buffer, 1, answer->size, stdout);
}

static bool is_same(const struct answer *one, const struct answer *other)
{
    return one->status == other->status && one->length == other->length && one->size == other->size
        && (one->size == 0 || memcmp(one->buffer, other->buffer, one->size) == 0);
}

/* All requests with their answers, and what one thread does of the calls. */
struct work {
    const struct request *requests;
    const struct answer *answers;
    size_t count, first, calls, differing;
};

static void *turns(void *given)
{
    struct work *work = given;
    for (size_t turn = 0; turn < work->calls; turn++) {
        size_t at = (work->first + turn) % work->count;
        struct answer answer;
        call(&work->requests[at], &answer);
        work->differing += !is_same(&answer, &work->answers[at]);
        free(answer.buffer);
    }
    return NULL;
}

static void at_once(FILE *file, size_t threads, size_t calls, size_t stack)
{
    pthread_attr_t attributes;
    struct request *requests = NULL, request;
    size_t count = 0, differing = 0;
    while (read_request(file, &request)) {
        requests = realloc(requests, (count + 1) * sizeof *requests);
        if (!requests)
            exit(REFUSED);
        requests[count++] = request;
    }
    struct answer *answers = taken(count * sizeof *answers);
    for (size_t at = 0; at < count; at++)
        call(&requests[at], &answers[at]);
    struct work *works = taken(threads * sizeof *works);
    pthread_t *running = taken(threads * sizeof *running);
    if (pthread_attr_init(&attributes) || (stack && pthread_attr_setstacksize(&attributes, stack)))
        abort();
    for (size_t at = 0; at < threads; at++) {
        works[at] = (struct work){requests, answers, count, at * count / threads, calls / threads, 0};
        if (pthread_create(&running[at], &attributes, turns, &works[at]))
            abort();
    }
    for (size_t at = 0; at < threads; at++) {
        pthread_join(running[at], NULL);
        differing += works[at].differing;
    }
    pthread_attr_destroy(&attributes);
    printf("%zu\n", differing);
    for (size_t at = 0; at < count; at++) {
        free(answers[at].buffer);
        drop_request(&requests[at]);
    }
    free(running);
    free(works);
    free(answers);
    free(requests);
}

/* Not by getrusage: its peak may be that of the process that started this one. */
static long peak(void)
{
    char line[256];
    long most = -1;
    FILE *status = fopen("/proc/self/status", "r");
    if (!status)
        exit(REFUSED);
    while (most < 0 && fgets(line, sizeof line, status))
        sscanf(line, "VmHWM: %ld", &most);
    fclose(status);
    return most;
}

int main(int count, char **words)
{
    /* buffers of our own, so that stdio asks for no memory where growths are refused */
    static char source[1 << 16], sink[1 << 16];
    FILE *file = count > 1 ? fopen(words[1], "rb") : NULL;
    if (!file)
        return REFUSED;
    setvbuf(file, source, _IOFBF, sizeof source);
    setvbuf(stdout, sink, _IOFBF, sizeof sink);
    if (count == 5) {
        at_once(file, strtoul(words[2], NULL, 10), strtoul(words[3], NULL, 10), strtoul(words[4], NULL, 10));
    } else {
        struct request request;
        struct answer answer;
        while (read_request(file, &request)) {
            call(&request, &answer);
            write_answer(&answer);
            free(answer.buffer);
            drop_request(&request);
        }
    }
    if (count == 3)
        fprintf(stderr, "%ld\n", peak());
    fclose(file);
    return EXIT_SUCCESS;
}
