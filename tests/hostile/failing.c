/* What `tests/run hostile` puts under a program (LD_PRELOAD): the C library's malloc, realloc, read and write, of which
 * the one that the environment names fails, or which move less than was asked. Its file COUNTS gets, as the program
 * ends, how often each was called: growths, those of them before the first read of standard input, its reads, and the
 * writes to standard output.
 *
 * With SERVE, two descriptors, the program is started once and run many times: before main it reads rows of five numbers
 * from the first (which growth, read and write fails, and how few bytes a read and a write move). For each row a copy of
 * it runs, from the beginning of the files that are its standard input, output and error; the second gets how it ended,
 * as waitpid has it, the four counts, and the most memory that it held, in KiB. */
#define _GNU_SOURCE
#include <dlfcn.h>
#include <errno.h>
#include <fcntl.h>
#include <stdatomic.h>
#include <stdio.h>
#include <stdlib.h>
#include <string.h>
#include <sys/mman.h>
#include <sys/resource.h>
#include <sys/syscall.h>
#include <sys/wait.h>
#include <unistd.h>

static atomic_long growths, growths_before_input, reads, writes;
static long failing_growth, failing_read, failing_write, most_read, most_written;
static long *shared; /* how a copy ended, its counts, and the most memory */

static long number(const char *name, long otherwise)
{
    const char *text = getenv(name);
    return text ? strtol(text, NULL, 10) : otherwise;
}

/* Returns in each copy, and in no other process. */
static void serve(int asks, int answers)
{
    long row[5];
    int status;
    struct rusage used;
    shared = mmap(NULL, 6 * sizeof *shared, PROT_READ | PROT_WRITE, MAP_SHARED | MAP_ANONYMOUS, -1, 0);
    while (syscall(SYS_read, asks, row, sizeof row) == sizeof row) {
        memset(shared, 0, 6 * sizeof *shared);
        pid_t copy = fork();
        if (copy == 0) {
            close(asks), close(answers);
            for (int file = 0; file < 3; file++)
                lseek(file, 0, SEEK_SET);
            failing_growth = row[0], failing_read = row[1], failing_write = row[2], most_read = row[3], most_written = row[4];
            return;
        }
        if (copy < 0 || wait4(copy, &status, 0, &used) != copy)
            break;
        shared[0] = status, shared[5] = used.ru_maxrss;
        if (syscall(SYS_write, answers, shared, 6 * sizeof *shared) != 6 * sizeof *shared)
            break;
    }
    syscall(SYS_exit_group, 0);
}

__attribute__((constructor)) static void begin(void)
{
    int asks, answers;
    failing_growth = number("FAIL_GROWTH", 0);
    failing_read = number("FAIL_READ", 0);
    failing_write = number("FAIL_WRITE", 0);
    most_read = number("MOST_READ", -1);
    most_written = number("MOST_WRITTEN", -1);
    if (getenv("SERVE") && sscanf(getenv("SERVE"), "%d %d", &asks, &answers) == 2)
        serve(asks, answers);
    atomic_store(&growths, 0);
}

static void tell(void)
{
    char text[100];
    const char *name = getenv("COUNTS");
    if (shared)
        shared[1] = growths, shared[2] = growths_before_input, shared[3] = reads, shared[4] = writes;
    int file = name ? open(name, O_WRONLY | O_CREAT | O_TRUNC, 0600) : -1;
    int length = snprintf(text, sizeof text, "%ld %ld %ld %ld\n", growths, growths_before_input, reads, writes);
    if (file >= 0 && syscall(SYS_write, file, text, length) == length)
        close(file);
}

/* agc ends by this call and no other. */
_Noreturn void _exit(int status)
{
    tell();
    syscall(SYS_exit_group, status);
    __builtin_unreachable();
}

/* agc_watch, which has no threads, ends as main returns. */
__attribute__((destructor)) static void end(void)
{
    tell();
}

static int is_refused(void)
{
    return atomic_fetch_add(&growths, 1) + 1 == failing_growth;
}

void *malloc(size_t size)
{
    static void *(*real)(size_t);
    if (!real)
        real = (void *(*)(size_t))dlsym(RTLD_NEXT, "malloc");
    return is_refused() ? NULL : real(size);
}

void *realloc(void *old, size_t size)
{
    static void *(*real)(void *, size_t);
    if (!real)
        real = (void *(*)(void *, size_t))dlsym(RTLD_NEXT, "realloc");
    return is_refused() ? NULL : real(old, size);
}

ssize_t read(int file, void *bytes, size_t length)
{
    if (file == 0) {
        if (!reads)
            growths_before_input = growths;
        if (atomic_fetch_add(&reads, 1) + 1 == failing_read)
            return errno = EIO, -1;
        if (most_read >= 0 && length > (size_t)most_read)
            length = most_read;
    }
    return syscall(SYS_read, file, bytes, length);
}

ssize_t write(int file, const void *bytes, size_t length)
{
    if (file == 1) {
        if (atomic_fetch_add(&writes, 1) + 1 == failing_write)
            return errno = EIO, -1;
        if (most_written >= 0 && length > (size_t)most_written)
            length = most_written;
    }
    return syscall(SYS_write, file, bytes, length);
}
