/* For tools/sleep-test and tools/history-test alone: a wall clock that is set ahead. It adds to the system's clock the milliseconds that
   stand as a 64-bit number in the file that CLOCK_AHEAD names; with CLOCK_SLEPT to the boot clock, too, as if that much time had passed. */
#define _GNU_SOURCE
#include <dlfcn.h>
#include <fcntl.h>
#include <stdint.h>
#include <stdlib.h>
#include <sys/mman.h>
#include <time.h>
#include <unistd.h>

static volatile int64_t *ahead;
static int slept;

__attribute__((constructor)) static void open_file(void) {
    const char *path = getenv("CLOCK_AHEAD");
    slept = getenv("CLOCK_SLEPT") != 0;
    int file = path ? open(path, O_RDONLY) : -1;
    if (file >= 0) {
        void *mapped = mmap(0, sizeof(int64_t), PROT_READ, MAP_SHARED, file, 0);
        ahead = mapped == MAP_FAILED ? 0 : mapped;
        close(file);
    }
}

int clock_gettime(clockid_t clock, struct timespec *time) {
    int (*real)(clockid_t, struct timespec *) = (int (*)(clockid_t, struct timespec *))dlsym(RTLD_NEXT, "clock_gettime");
    int status = real(clock, time);
    if (status == 0 && (clock == CLOCK_REALTIME || (slept && clock == CLOCK_BOOTTIME)) && ahead) {
        time->tv_sec += *ahead / 1000;
    }
    return status;
}
