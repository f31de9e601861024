/* How long it takes only to ask for what a distribution's text and problem hold in memory: the least time for reading it.
 *
 * usage: blocks FILE PACKAGES     FILE is what `generate.py distribution PACKAGES` wrote
 *
 * The file is read, and each block that the public types need is asked for once, at its exact size, and filled: for a
 * package nine properties of 48 bytes, nine clauses of 24 with ten atoms of 32, `recommends`, one conflict and two
 * provisions; and the stanza, the package and its name and version. No line is looked at, and nothing is given back.
 */
#include <fcntl.h>
#include <stdio.h>
#include <stdlib.h>
#include <string.h>
#include <unistd.h>

static void block(size_t size)
{
    void *taken = malloc(size);
    if (!taken)
        exit(6);
    memset(taken, 1, size);
}

static void read_file(const char *name)
{
    size_t room = (size_t)1 << 28, length = 0;
    char *bytes = malloc(room);
    int file = open(name, O_RDONLY);
    ssize_t given = 0;
    if (!bytes || file < 0)
        exit(5);
    while ((given = read(file, bytes + length, 65536)) > 0)
        length += (size_t)given;
}

int main(int count, char **words)
{
    if (count != 3)
        return 4;
    long packages = atol(words[2]);
    read_file(words[1]);
    block((size_t)packages * (40 + 136 + 48));
    for (long i = 0; i < packages; i++)
        block(9 * 48);
    for (long i = 0; i < packages; i++) {
        block(9 * 24);
        for (int clause = 0; clause < 8; clause++)
            block(32);
        block(2 * 32);
        block(24);
        block(32);
        block(32);
        block(2 * 32);
    }
    puts("ok");
    fflush(stdout);
    _exit(0);
}
