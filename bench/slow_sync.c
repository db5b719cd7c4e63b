/* Makes each sync of a program take longer, as on a slow device: SLOW_SYNC microseconds, besides what it takes.
 *
 *     cc -shared -fPIC -O2 -o slow_sync.so slow_sync.c
 *     SLOW_SYNC=5000 LD_PRELOAD=./slow_sync.so PROGRAM ..
 */
#define _GNU_SOURCE
#include <dlfcn.h>
#include <stdlib.h>
#include <time.h>
#include <unistd.h>

static void rest(void)
{
    const char *text = getenv("SLOW_SYNC");
    long micros = text ? atol(text) : 0;
    struct timespec pause = {micros / 1000000, micros % 1000000 * 1000};
    nanosleep(&pause, NULL);
}

int fsync(int file)
{
    int (*sync)(int) = (int (*)(int))dlsym(RTLD_NEXT, "fsync");
    rest();
    return sync(file);
}

int fdatasync(int file)
{
    int (*sync)(int) = (int (*)(int))dlsym(RTLD_NEXT, "fdatasync");
    rest();
    return sync(file);
}
