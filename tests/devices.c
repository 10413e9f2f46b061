/* A library to be loaded before a program's own: its standard input and output do what the environment says.
   READ_PIECE=N and WRITE_PIECE=N let each call bring or take N bytes at most. READ_FAILS=N lets a read fail once N bytes came,
   WRITE_FAILS=N a write once N bytes went, and WRITE_STOPS=N lets it take no byte from there on. */
#define _GNU_SOURCE
#include <errno.h>
#include <stdint.h>
#include <stdlib.h>
#include <sys/syscall.h>
#include <unistd.h>

static size_t came, went;

static size_t number(const char *name) {
    const char *word = getenv(name);
    return word ? strtoul(word, NULL, 10) : SIZE_MAX;
}

static size_t least(size_t one, size_t other) { return one < other ? one : other; }

static ssize_t failed(void) {
    errno = EIO;
    return -1;
}

ssize_t read(int file, void *block, size_t size) {
    if (file != 0) return syscall(SYS_read, file, block, size);
    size_t fails = number("READ_FAILS");
    if (came >= fails) return failed();
    ssize_t count = syscall(SYS_read, file, block, least(least(size, number("READ_PIECE")), fails - came));
    if (count > 0) came += count;
    return count;
}

ssize_t write(int file, const void *block, size_t size) {
    if (file != 1) return syscall(SYS_write, file, block, size);
    size_t fails = number("WRITE_FAILS"), stops = number("WRITE_STOPS");
    if (went >= fails) return failed();
    if (went >= stops) return 0;
    ssize_t count = syscall(SYS_write, file, block, least(least(size, number("WRITE_PIECE")), least(fails, stops) - went));
    if (count > 0) went += count;
    return count;
}
