/* A disk that loses what wasn't synced, and that ends the program at a call: loaded before a program (LD_PRELOAD), it stands between it and
   the file that LOSING_FILE names. What is written to that file is kept here until it is synced, and only then goes to it. At the call with
   number LOSING_AT, from 1 on, of those that write to the file or sync it, the program is killed: of what wasn't synced each octet has reached
   the file or not, and of one octet each bit, by the seed LOSING_SEED. */
#define _GNU_SOURCE
#include <dlfcn.h>
#include <fcntl.h>
#include <pthread.h>
#include <signal.h>
#include <stdint.h>
#include <stdlib.h>
#include <string.h>
#include <sys/stat.h>
#include <sys/syscall.h>
#include <unistd.h>

#define OCTETS 65536

static pthread_mutex_t turn = PTHREAD_MUTEX_INITIALIZER;
static uint8_t pending[OCTETS];
static uint8_t is_pending[OCTETS];
static unsigned long calls, last;
static uint64_t seed;
static dev_t device;
static ino_t number;

__attribute__((constructor)) static void begin(void) {
    const char *path = getenv("LOSING_FILE"), *at = getenv("LOSING_AT"), *start = getenv("LOSING_SEED");
    struct stat told;
    if (path && stat(path, &told) == 0) {
        device = told.st_dev;
        number = told.st_ino;
    }
    last = at ? strtoul(at, NULL, 10) : 0;
    seed = start ? strtoul(start, NULL, 10) : 1;
}

static int is_ours(int file) {
    struct stat told;
    return number && fstat(file, &told) == 0 && told.st_dev == device && told.st_ino == number;
}

static uint64_t next_random(void) {
    /* SplitMix64 */
    uint64_t z = (seed += 0x9e3779b97f4a7c15u);
    z = (z ^ (z >> 30)) * 0xbf58476d1ce4e5b9u;
    z = (z ^ (z >> 27)) * 0x94d049bb133111ebu;
    return z ^ (z >> 31);
}

/* Hands over what is kept: all of it, or what the program's end leaves of it. */
static void hand_over(int file, int is_end) {
    for (long at = 0; at < OCTETS; at++) {
        if (!is_pending[at]) continue;
        uint8_t octet = pending[at];
        if (is_end) {
            uint8_t old = octet, mask = (uint8_t)next_random();
            syscall(SYS_pread64, file, &old, 1, at);
            octet = (uint8_t)((old & ~mask) | (octet & mask));
        }
        syscall(SYS_pwrite64, file, &octet, 1, at);
        is_pending[at] = 0;
    }
}

/* Counts a call, and ends the program at the last one. */
static void count(int file) {
    if (++calls == last) {
        hand_over(file, 1);
        syscall(SYS_kill, syscall(SYS_getpid), SIGKILL);
    }
}

static ssize_t keep(int file, const void *octets, size_t size, off_t at) {
    if (at < 0 || at + (off_t)size > OCTETS) return syscall(SYS_pwrite64, file, octets, size, at);
    pthread_mutex_lock(&turn);
    memcpy(pending + at, octets, size);
    memset(is_pending + at, 1, size);
    count(file);
    pthread_mutex_unlock(&turn);
    return (ssize_t)size;
}

ssize_t pwrite64(int file, const void *octets, size_t size, off_t at) {
    return is_ours(file) ? keep(file, octets, size, at) : syscall(SYS_pwrite64, file, octets, size, at);
}

ssize_t pwrite(int file, const void *octets, size_t size, off_t at) { return pwrite64(file, octets, size, at); }

static int synced(int file, long call) {
    if (is_ours(file)) {
        pthread_mutex_lock(&turn);
        count(file);
        hand_over(file, 0);
        pthread_mutex_unlock(&turn);
    }
    return (int)syscall(call, file);
}

int fdatasync(int file) { return synced(file, SYS_fdatasync); }

int fsync(int file) { return synced(file, SYS_fsync); }
