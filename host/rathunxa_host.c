/* rathunxa-host PLAN PASSAGE: works the two files and prints a line for each finding, then the answer's four numbers.

   Status 0: worked. 1: turned back, or ended by a limit. 2: a file could not be read, or standard output not written;
   then a line on standard error says which, and after a file that could not be read nothing is printed. */
#include "rathunxa.h"
#include <errno.h>
#include <inttypes.h>
#include <stdbool.h>
#include <stdio.h>
#include <stdlib.h>
#include <string.h>

#define OUTPUT_BYTES 32768
#define FIRST_ROOM 4096

enum status { WORKED = 0, NOT_WORKED = 1, NOT_READ_OR_WRITTEN = 2 };

struct file {
    uint8_t *bytes;
    size_t length;
};

static void complain(const char *about)
{
    fprintf(stderr, "rathunxa-host: %s: %s\n", about, strerror(errno));
}

/* Adds a stream's bytes to the file, up to the stream's end. */
static bool read_stream(FILE *stream, struct file *file)
{
    size_t room = 0;
    while (!feof(stream)) {
        if (file->length == room) {
            room = room == 0 ? FIRST_ROOM : 2 * room;
            uint8_t *more = realloc(file->bytes, room);
            if (!more) return false;
            file->bytes = more;
        }
        file->length += fread(file->bytes + file->length, 1, room - file->length, stream);
        if (ferror(stream)) return false;
    }
    return true;
}

/* A directory opens like a file; only reading it fails. */
static bool read_file(const char *path, struct file *file)
{
    FILE *stream = fopen(path, "rb");
    bool done = stream && read_stream(stream, file);
    if (!done) complain(path);
    if (stream) fclose(stream);
    return done;
}

/* The next big-endian number of the output. What the library has written is whole findings. */
static uint64_t take(const uint8_t **at, int size)
{
    uint64_t value = 0;
    for (int i = 0; i < size; i++) value = value << 8 | *(*at)++;
    return value;
}

static const char *comma(uint64_t before)
{
    return before == 0 ? "" : ",";
}

static void print_timestamps(const uint8_t **at)
{
    uint64_t count = take(at, 2);
    for (uint64_t i = 0; i < count; i++) {
        uint64_t logger = take(at, 2);
        uint64_t tick = take(at, 8);
        printf("%s%" PRIu64 ":%" PRIu64, comma(i), logger, tick);
    }
}

static void print_events(const uint8_t **at)
{
    uint64_t count = take(at, 2);
    for (uint64_t i = 0; i < count; i++) printf("%s%" PRIu64, comma(i), take(at, 2));
}

static void print_finding(const uint8_t **at)
{
    printf("node %" PRIu64 " at ", take(at, 2));
    print_timestamps(at);
    printf(" from ");
    print_events(at);
    printf("\n");
}

static void print_listing(const struct rathunxa_answer *answer, const uint8_t *output)
{
    const uint8_t *at = output;
    for (uint64_t i = 0; i < answer->findings; i++) print_finding(&at);
    printf("end %" PRIu64 " %" PRIu64 " %" PRIu64 " %" PRIu64 "\n", answer->number, answer->place, answer->findings,
           answer->bytes);
}

static enum status work(const struct file *plan, const struct file *passage)
{
    static uint8_t output[OUTPUT_BYTES];
    struct rathunxa_answer answer =
        rathunxa_work(plan->bytes, plan->length, passage->bytes, passage->length, output, sizeof output);
    print_listing(&answer, output);
    bool written = !ferror(stdout);
    if (fclose(stdout) == 0 && written) return answer.number == RATHUNXA_OK ? WORKED : NOT_WORKED;
    complain("standard output");
    return NOT_READ_OR_WRITTEN;
}

int main(int argc, char **argv)
{
    struct file plan = {NULL, 0}, passage = {NULL, 0};
    enum status status = NOT_READ_OR_WRITTEN;
    if (argc != 3)
        fprintf(stderr, "usage: rathunxa-host PLAN PASSAGE\n");
    else if (read_file(argv[1], &plan) && read_file(argv[2], &passage))
        status = work(&plan, &passage);
    free(plan.bytes);
    free(passage.bytes);
    return status;
}
