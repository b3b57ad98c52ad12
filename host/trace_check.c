/* trace_check FILE..: checks traces, and tells of each how many operations it holds and what stops it. See `help` below.
 *
 * The reading of files is here; what the bytes hold is answered by the proved functions of trace_check.h.
 */
#include <errno.h>
#include <stdint.h>
#include <stdio.h>
#include <stdlib.h>
#include <string.h>

#include "trace_check.h"

static const char help[] =
    "usage: trace_check FILE..\n"
    "\n"
    "Checks each FILE, a trace, without running it; - is standard input. A trace holds operations\n"
    "alone: a kind and a capacity before them would be read as an operation. A FILE whose name\n"
    "ends in .input, as such a one should be named, is not checked. Prints a line for each, in the\n"
    "given order:\n"
    "\n"
    "    FILE: operations N refusal R offset O\n"
    "\n"
    "N is the number of operations that read whole. R is the refusal that stopped the check:\n"
    "4 for an unknown operation, 5 for a number that cannot be read, 0 for none. O is the byte\n"
    "at which the refused operation starts, or the length of the trace where R is 0.\n"
    "\n"
    "A FILE that cannot be read gets a message on standard error, and the others their lines.\n"
    "Statuses: 0 every FILE is a trace that reads whole; 1 one is refused; 2 one could not be\n"
    "read, the lines could not be written, or there was no FILE, or an option other than --help.\n";

/* A whole file in memory. `bytes` is never null. */
struct contents {
    uint8_t *bytes;
    size_t length;
};

/* Reads a stream to its end. Returns 0, or the error's number, and then `c` holds nothing. */
static int read_all(FILE *in, struct contents *c)
{
    size_t room = 65536;
    c->length = 0;
    c->bytes = malloc(room);
    if (c->bytes == NULL)
        return ENOMEM;
    for (;;) {
        size_t got;
        errno = 0;
        got = fread(c->bytes + c->length, 1, room - c->length, in);
        c->length += got;
        if (c->length < room)
            break;
        uint8_t *more = room > SIZE_MAX / 2 ? NULL : realloc(c->bytes, 2 * room);
        if (more == NULL) {
            free(c->bytes);
            return ENOMEM;
        }
        c->bytes = more;
        room *= 2;
    }
    if (ferror(in)) {
        int error = errno != 0 ? errno : EIO;
        free(c->bytes);
        return error;
    }
    return 0;
}

static int read_file(const char *name, struct contents *c)
{
    FILE *in;
    int error;
    if (strcmp(name, "-") == 0)
        return read_all(stdin, c);
    in = fopen(name, "rb");
    if (in == NULL)
        return errno;
    error = read_all(in, c);
    fclose(in);
    return error;
}

/* Prints the line of a trace. Returns whether it is refused. */
static int print_check(const char *name, const struct contents *c)
{
    uint64_t answers[3] = {0, 0, 0};
    trace_check_all(c->bytes, c->length, answers, 3);
    printf("%s: operations %llu refusal %llu offset %llu\n", name, (unsigned long long)answers[0],
           (unsigned long long)answers[1], (unsigned long long)answers[2]);
    return answers[1] != 0;
}

/* Whether a name ends in .input, in small letters or capital ones. */
static int is_input(const char *name)
{
    static const char small[] = ".input", capital[] = ".INPUT";
    size_t length = strlen(name), i;
    if (length < 6)
        return 0;
    for (i = 0; i < 6; i++)
        if (name[length - 6 + i] != small[i] && name[length - 6 + i] != capital[i])
            return 0;
    return 1;
}

int main(int argc, char **argv)
{
    int status = 0;
    if (argc < 2) {
        fputs(help, stderr);
        return 2;
    }
    if (argc == 2 && strcmp(argv[1], "--help") == 0) {
        fputs(help, stdout);
        return fflush(stdout) == 0 ? 0 : 2;
    }
    for (int i = 1; i < argc; i++)
        if (argv[i][0] == '-' && argv[i][1] != '\0') {
            fprintf(stderr, "trace_check: %.40s is no option; trace_check --help tells more\n", argv[i]);
            return 2;
        }
    for (int i = 1; i < argc; i++) {
        struct contents c;
        int error;
        if (is_input(argv[i])) {
            fflush(stdout);
            fprintf(stderr, "trace_check: %s is, by its name, no trace: a kind and a capacity are no operation\n", argv[i]);
            status = 2;
            continue;
        }
        error = read_file(argv[i], &c);
        if (error != 0) {
            fflush(stdout);
            fprintf(stderr, "trace_check: cannot read %s: %s\n", argv[i], strerror(error));
            status = 2;
            continue;
        }
        if (print_check(argv[i], &c) && status == 0)
            status = 1;
        free(c.bytes);
    }
    if (fflush(stdout) != 0 || ferror(stdout)) {
        fprintf(stderr, "trace_check: cannot write the answers: %s\n", strerror(errno));
        status = 2;
    }
    return status;
}
