/* Loses memory, and has threads that write the same number: to see whether sanitizers report it. For library.py. */
#include <pthread.h>
#include <stdlib.h>

static int shared;

static void __attribute__((noinline)) lose(void)
{
    *(volatile char *)malloc(99) = 1;
}

static void *add(void *none)
{
    for (int n = 0; n < 9999; n++)
        shared++;
    return none;
}

int main(void)
{
    pthread_t one;
    for (int n = 0; n < 9; n++)
        lose();
    pthread_create(&one, 0, add, 0);
    add(0);
    return pthread_join(one, 0);
}
