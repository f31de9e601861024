/* A library to load before a program (LD_PRELOAD): it makes calls of the system fail or do little, and counts what the
   program takes. Three variables of the environment say what it does; without them it changes nothing.

   SHIM_RULES: lines `CALL NAME FIRST LAST STEP ANSWER`, whose fields are separated by tabs. Of the calls CALL on NAME
   the FIRSTth and each STEPth after it, up to the LASTth, fail with the error -ANSWER or, where ANSWER isn't negative,
   move at most ANSWER bytes. The first rule that fits a call is taken. CALL and NAME are `open` with a path; `read` or
   `write` with the path that was opened, or with the number of a standard descriptor; or `memory heap`: malloc, calloc,
   realloc.

   SHIM_LOG: the descriptor of a log. Each open, read and write, and each refusal of memory, is a line `CALL NAME SIZE
   ANSWER` there; ANSWER is negative where the call failed. Refusals are `grow heap` where memory was asked for, and
   `shrink heap` where some was to be given back.

   SHIM_COUNTS: the descriptor of a file of six longs, which are right at each moment, however the program ends: how
   often memory was asked for; the blocks that are held, their bytes, and the most of these so far; the calls of read,
   and the bytes that these gave. A block counts with all bytes that it can use.

   For glibc, and for programs of one thread. */
#define _GNU_SOURCE
#include <errno.h>
#include <fcntl.h>
#include <limits.h>
#include <malloc.h>
#include <stdarg.h>
#include <stddef.h>
#include <stdio.h>
#include <stdlib.h>
#include <string.h>
#include <sys/mman.h>
#include <sys/syscall.h>
#include <sys/types.h>
#include <unistd.h>

enum { NAMES = 64, LONGEST = 256, RULES = 16, MOST_LINES = 1000000 };

void *__libc_malloc(size_t size);
void *__libc_calloc(size_t count, size_t size);
void *__libc_realloc(void *block, size_t size);
void __libc_free(void *block);

/* ---- rules and log */

struct rule {
    char call[16], name[LONGEST];
    long first, last, step, answer, calls;
};

static struct rule rules[RULES];
static int rule_count;

static void read_rules(void)
{
    static const char *text;
    if (text || !(text = getenv("SHIM_RULES")))
        return;
    for (const char *line = text; line && *line; line = strchr(line, '\n'), line = line ? line + 1 : NULL) {
        struct rule *it = &rules[rule_count++];
        if (rule_count > RULES ||
            sscanf(line, "%15[^\t]%*1[\t]%255[^\t]%ld %ld %ld %ld", it->call, it->name, &it->first, &it->last,
                   &it->step, &it->answer) != 6)
            abort();
    }
}

/* what the rules say of a call: a negative error, or the most bytes that it moves */
static long ruled(const char *call, const char *name)
{
    long answer = LONG_MAX;
    read_rules();
    /* backwards, so that the first one that fits decides */
    for (struct rule *it = rules + rule_count; it-- > rules;) {
        if (strcmp(call, it->call) != 0 || strcmp(name, it->name) != 0)
            continue;
        it->calls++;
        if (it->first <= it->calls && it->calls <= it->last && (it->calls - it->first) % it->step == 0)
            answer = it->answer;
    }
    return answer;
}

static void add_line(const char *call, const char *name, size_t size, long answer)
{
    static long lines;
    const char *log = getenv("SHIM_LOG");
    char line[LONGEST + 64];
    if (!log)
        return;
    int length = snprintf(line, sizeof line, "%s\t%s\t%zu\t%ld\n", call, name, size, answer);
    if (lines++ == MOST_LINES || syscall(SYS_write, atoi(log), line, (size_t)length) != length)
        abort();
}

/* ends a call: with this answer, or with an error where it is negative */
static long ended(const char *call, const char *name, size_t size, long answer)
{
    add_line(call, name, size, answer);
    if (answer >= 0)
        return answer;
    errno = (int)-answer;
    return -1;
}

/* ---- what was asked for, held and read */

struct counts {
    long growths, blocks, bytes, peak, reads, given;
};

static struct counts *counts(void)
{
    static struct counts own, *shared;
    const char *file = shared ? NULL : getenv("SHIM_COUNTS");
    if (file) {
        void *mapped = mmap(NULL, sizeof own, PROT_READ | PROT_WRITE, MAP_SHARED, atoi(file), 0);
        shared = mapped == MAP_FAILED ? &own : mapped;
    }
    return shared ? shared : &own;
}

static void hold(long blocks, long bytes)
{
    struct counts *now = counts();
    now->blocks += blocks;
    now->bytes += bytes;
    if (now->peak < now->bytes)
        now->peak = now->bytes;
}

/* ---- memory */

static int is_refused(const char *call, size_t size)
{
    long answer = ruled("memory", "heap");
    return answer < 0 && ended(call, "heap", size, answer) < 0;
}

static void *taken(void *block)
{
    counts()->growths++;
    if (block)
        hold(1, (long)malloc_usable_size(block));
    return block;
}

void *malloc(size_t size)
{
    return is_refused("grow", size) ? NULL : taken(__libc_malloc(size));
}

void *calloc(size_t count, size_t size)
{
    return is_refused("grow", count * size) ? NULL : taken(__libc_calloc(count, size));
}

void *realloc(void *block, size_t size)
{
    size_t before = block ? malloc_usable_size(block) : 0;
    if (is_refused(block && size <= before ? "shrink" : "grow", size))
        return NULL;
    if (!block)
        return taken(__libc_malloc(size));
    void *other = __libc_realloc(block, size);
    if (other) {
        counts()->growths += before < size;
        hold(0, (long)malloc_usable_size(other) - (long)before);
    } else if (size == 0) {
        hold(-1, -(long)before);
    }
    return other;
}

void free(void *block)
{
    if (block)
        hold(-1, -(long)malloc_usable_size(block));
    __libc_free(block);
}

/* ---- files */

static char names[NAMES][LONGEST];

static const char *name_of(int file)
{
    static char number[16];
    if (file >= 0 && file < NAMES && names[file][0])
        return names[file];
    snprintf(number, sizeof number, "%d", file);
    return number;
}

static long moved(const char *call, long number, int file, void *bytes, size_t size)
{
    const char *name = name_of(file);
    long answer = ruled(call, name);
    if (answer >= 0) {
        answer = syscall(number, file, bytes, (size_t)answer < size ? (size_t)answer : size);
        answer = answer < 0 ? -(long)errno : answer;
    }
    return ended(call, name, size, answer);
}

ssize_t read(int file, void *bytes, size_t size)
{
    long given = moved("read", SYS_read, file, bytes, size);
    counts()->reads++;
    counts()->given += given > 0 ? given : 0;
    return given;
}

ssize_t write(int file, const void *bytes, size_t size)
{
    return moved("write", SYS_write, file, (void *)bytes, size);
}

ssize_t __write(int file, const void *bytes, size_t size)
{
    return write(file, bytes, size);
}

static int opened(int folder, const char *path, int flags, mode_t mode)
{
    long file = ruled("open", path);
    if (file >= 0) {
        file = syscall(SYS_openat, folder, path, flags, mode);
        file = file < 0 ? -(long)errno : file;
    }
    if (file >= 0 && file < NAMES)
        snprintf(names[file], LONGEST, "%s", path);
    return (int)ended("open", path, 0, file);
}

#define OPENS(name, parameters, folder)                            \
    int name parameters                                            \
    {                                                              \
        va_list more;                                              \
        va_start(more, flags);                                     \
        mode_t mode = flags & O_CREAT ? va_arg(more, mode_t) : 0;  \
        va_end(more);                                              \
        return opened(folder, path, flags, mode);                  \
    }

OPENS(open, (const char *path, int flags, ...), AT_FDCWD)
OPENS(open64, (const char *path, int flags, ...), AT_FDCWD)
OPENS(openat, (int folder, const char *path, int flags, ...), folder)
OPENS(openat64, (int folder, const char *path, int flags, ...), folder)

int close(int file)
{
    if (file >= 0 && file < NAMES)
        names[file][0] = 0;
    return (int)syscall(SYS_close, file);
}
