/* Faults of reading and writing, for a program that runs with this library loaded before the C library (LD_PRELOAD).
 *
 * tests/run compiles it, and names in the environment of a run what happens there; a variable that isn't set does nothing:
 *
 *   FAULTS_READS_AT_MOST       no read gives more than so many bytes
 *   FAULTS_FAILING_READ        the number of the read that fails, from 1
 *   FAULTS_FAILING_WRITE       the number of the write on standard output that fails, from 1
 *   FAULTS_FAILING_WRITE_ERR   the same on standard error
 *   FAULTS_ROOM                standard output takes so many bytes, and is full from then on
 *
 * Reads are counted from the start of the program over all its inputs, which are regular files and standard input. What the
 * loader reads isn't counted: it has a call of its own. A read that fails reads nothing, and one behind it goes on.
 */
#define _GNU_SOURCE
#include <dlfcn.h>
#include <errno.h>
#include <stdbool.h>
#include <stdlib.h>
#include <sys/stat.h>
#include <unistd.h>

/* What a variable has that isn't set. No call has this number, and no read or room has so many bytes. */
static const long UNSET = -1;

typedef ssize_t reading(int file, void *bytes, size_t length);
typedef ssize_t writing(int file, const void *bytes, size_t length);

static reading *read_of_system;
static writing *write_of_system;

static long reads_at_most, failing_read, failing_write, failing_write_err;

/* How many bytes standard output still takes. */
static long room;

/* How many calls there were so far. */
static long reads, writes, writes_err;

static long number_of(const char *name) {
    const char *value = getenv(name);
    return value ? atol(value) : UNSET;
}

__attribute__((constructor)) static void begin(void) {
    read_of_system = (reading *)dlsym(RTLD_NEXT, "read");
    write_of_system = (writing *)dlsym(RTLD_NEXT, "write");
    reads_at_most = number_of("FAULTS_READS_AT_MOST");
    failing_read = number_of("FAULTS_FAILING_READ");
    failing_write = number_of("FAULTS_FAILING_WRITE");
    failing_write_err = number_of("FAULTS_FAILING_WRITE_ERR");
    room = number_of("FAULTS_ROOM");
}

static ssize_t fault(int number) {
    errno = number;
    return -1;
}

static bool is_input(int file) {
    struct stat found;
    return file == STDIN_FILENO || (fstat(file, &found) == 0 && S_ISREG(found.st_mode));
}

/* So many bytes, or those that the limit lets through. */
static size_t within(size_t length, long limit) {
    return limit != UNSET && (size_t)limit < length ? (size_t)limit : length;
}

ssize_t read(int file, void *bytes, size_t length) {
    if (!is_input(file)) return read_of_system(file, bytes, length);
    if (++reads == failing_read) return fault(EIO);
    return read_of_system(file, bytes, within(length, reads_at_most));
}

/* Writes what there is room for, and takes that much of the room. */
static ssize_t write_into_room(int file, const void *bytes, size_t length) {
    if (room == 0 && length > 0) return fault(ENOSPC);
    ssize_t written = write_of_system(file, bytes, within(length, room));
    if (room != UNSET && written > 0) room -= written;
    return written;
}

ssize_t write(int file, const void *bytes, size_t length) {
    if (file == STDOUT_FILENO) return ++writes == failing_write ? fault(EIO) : write_into_room(file, bytes, length);
    if (file == STDERR_FILENO && ++writes_err == failing_write_err) return fault(EIO);
    return write_of_system(file, bytes, length);
}
