/* Runs a command without input, for measure.py.

usage: runs COUNT COMMAND [WORD..]

Prints the last status, the least processor time in microseconds, the greatest memory in KB, and the microseconds that
COUNT runs took together. It is small: a child's memory is never less than that of the process that starts it. */
#define _GNU_SOURCE
#include <fcntl.h>
#include <stdio.h>
#include <stdlib.h>
#include <sys/resource.h>
#include <sys/time.h>
#include <sys/wait.h>
#include <unistd.h>

static long long micros(struct timeval time)
{
    return time.tv_sec * 1000000LL + time.tv_usec;
}

int main(int count, char **words)
{
    struct timeval begun, ended;
    long long least = -1, memory = 0;
    int status = 0;
    if (count < 3)
        return EXIT_FAILURE;
    gettimeofday(&begun, NULL);
    for (int left = atoi(words[1]); left > 0; left--) {
        struct rusage used;
        pid_t child = fork();
        if (child == 0) {
            int none = open("/dev/null", O_RDWR);
            for (int number = 0; number < 3; number++)
                dup2(none, number);
            execvp(words[2], words + 2);
            _exit(127);
        }
        if (child < 0 || wait4(child, &status, 0, &used) < 0)
            return EXIT_FAILURE;
        long long taken = micros(used.ru_utime) + micros(used.ru_stime);
        least = least < 0 || taken < least ? taken : least;
        memory = used.ru_maxrss > memory ? used.ru_maxrss : memory;
    }
    gettimeofday(&ended, NULL);
    status = WIFEXITED(status) ? WEXITSTATUS(status) : -WTERMSIG(status);
    printf("%d %lld %lld %lld\n", status, least, memory, micros(ended) - micros(begun));
    return EXIT_SUCCESS;
}
