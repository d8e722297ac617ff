/* A library for LD_PRELOAD that fails calls: each read of standard input takes at most READ_PIECE bytes, each write to standard output
 * WRITE_PIECE. The read of the number FAIL_READ, counted from 1, and the write of the number FAIL_WRITE fail with the error FAIL_ERROR, and
 * with FAIL_EVERY=1 each one behind it whose number is as odd or even. How many reads and writes were made stands in the first sixteen bytes
 * of the file FAIL_COUNT, which is mapped into memory. tools/fail_calls compiles it and uses it. */
#define _GNU_SOURCE
#include <dlfcn.h>
#include <errno.h>
#include <fcntl.h>
#include <stdlib.h>
#include <sys/mman.h>
#include <unistd.h>

static unsigned long without_file[2];
static unsigned long *made = without_file;
static unsigned long read_piece, write_piece, failing_read, failing_write, error, every;
static ssize_t (*real_read)(int, void *, size_t);
static ssize_t (*real_write)(int, const void *, size_t);

static unsigned long number_of(const char *name)
{
    const char *text = getenv(name);
    return text ? strtoul(text, NULL, 10) : 0;
}

/* Runs before main. */
__attribute__((constructor)) static void begin(void)
{
    const char *name = getenv("FAIL_COUNT");
    int file = name ? open(name, O_RDWR) : -1;
    if (file >= 0) {
        void *place = mmap(NULL, 2 * sizeof *made, PROT_READ | PROT_WRITE, MAP_SHARED, file, 0);
        if (place != MAP_FAILED)
            made = place;
        close(file);
    }
    real_read = (ssize_t (*)(int, void *, size_t))dlsym(RTLD_NEXT, "read");
    real_write = (ssize_t (*)(int, const void *, size_t))dlsym(RTLD_NEXT, "write");
    read_piece = number_of("READ_PIECE");
    write_piece = number_of("WRITE_PIECE");
    failing_read = number_of("FAIL_READ");
    failing_write = number_of("FAIL_WRITE");
    error = number_of("FAIL_ERROR");
    every = number_of("FAIL_EVERY");
}

static int fails(unsigned long number, unsigned long failing)
{
    int failed = failing != 0 && (number == failing || (every && number > failing && (number - failing) % 2 == 0));
    if (failed)
        errno = (int)error;
    return failed;
}

static size_t at_most(size_t size, unsigned long piece)
{
    return piece != 0 && size > piece ? piece : size;
}

ssize_t read(int file, void *bytes, size_t size)
{
    if (file != STDIN_FILENO)
        return real_read(file, bytes, size);
    return fails(++made[0], failing_read) ? -1 : real_read(file, bytes, at_most(size, read_piece));
}

ssize_t write(int file, const void *bytes, size_t size)
{
    if (file != STDOUT_FILENO)
        return real_write(file, bytes, size);
    return fails(++made[1], failing_write) ? -1 : real_write(file, bytes, at_most(size, write_piece));
}
