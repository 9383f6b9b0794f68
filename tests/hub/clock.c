/* clock.c: a clock of the machine that is wrong: by as many seconds as the file has that CLOCK_FILE names. It is preloaded. */
#define _GNU_SOURCE
#include <dlfcn.h>
#include <stdio.h>
#include <stdlib.h>
#include <time.h>

int clock_gettime(clockid_t clock, struct timespec *found)
{
    static int (*real)(clockid_t, struct timespec *);
    const char *path = getenv("CLOCK_FILE");
    long wrong = 0;
    FILE *file;
    int result;

    if (real == NULL)
        *(void **)&real = dlsym(RTLD_NEXT, "clock_gettime");
    result = real(clock, found);
    if (result == 0 && clock == CLOCK_REALTIME && path != NULL && (file = fopen(path, "r")) != NULL) {
        if (fscanf(file, "%ld", &wrong) == 1)
            found->tv_sec += wrong;
        fclose(file);
    }
    return result;
}
