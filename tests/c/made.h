/*
 * What the tests of kinds, of faults and of damaged shows share: files that are made and damaged, and a count of what
 * does not hold.
 */
#ifndef MADE_H
#define MADE_H

#include "deliveries.h"
#include "faults.h"
#include "program.h"
#include "totals.h"

#include <stdio.h>
#include <string.h>

enum { FILE_BYTES = WOSTHILE_PATCH_FILE_MAX + 600 };

static uint64_t random_state = 1;
static size_t failures;

static inline unsigned draw(unsigned below) { return (unsigned)(next_random(&random_state) % below); }

/* A file that is being made. */
struct made {
    size_t length;
    uint8_t bytes[FILE_BYTES];
};

static inline struct file file_of(const struct made *made) { return (struct file){made->bytes, made->length}; }

static inline void print_file(const char *what, struct file file)
{
    fprintf(stderr, "  %s:", what);
    for (size_t place = 0; place < file.length; place++) {
        fprintf(stderr, " %d", file.bytes[place]);
    }
    fprintf(stderr, "\n");
}

/* Counts what does not hold, and prints the file that it does not hold for. */
static inline void expect(bool holds, const char *what, struct file file)
{
    if (!holds) {
        failures++;
        print_file(what, file);
    }
}

/* Appends a section to a file. */
static inline void put(struct made *made, const uint8_t *bytes, size_t count)
{
    made->bytes[made->length] = (uint8_t)(count / 256);
    made->bytes[made->length + 1] = (uint8_t)(count % 256);
    memcpy(made->bytes + made->length + 2, bytes, count);
    made->length += 2 + count;
}

/* Appends totals of zero, with which a patch ends. */
static inline void put_zero_totals(struct made *made)
{
    memcpy(made->bytes + made->length, totals_of_zero, sizeof totals_of_zero);
    made->length += sizeof totals_of_zero;
}

static inline struct made section(const uint8_t *bytes, size_t count)
{
    struct made made = {.length = 0};
    put(&made, bytes, count);
    return made;
}

/* The number of a slice; a refused one is not complete and has no arrivals. */
static inline uint32_t slice_number(struct file type, struct file slice)
{
    wosthile_admitted seen = wosthile_admit(type.bytes, type.length, slice.bytes, slice.length);
    bool nothing = seen.complete == 0 && seen.arrived == 0;
    expect(seen.number == WOSTHILE_ACCEPTED || nothing, "a refused slice", slice);
    return seen.number;
}

static inline uint32_t patch_number(struct file patch)
{
    uint8_t type[WOSTHILE_TYPE_FILE_MAX];
    return wosthile_check(patch.bytes, patch.length, type, sizeof type).number;
}

/* Changes a byte, takes one out or puts one in, at random. */
static inline void damage(struct made *made)
{
    size_t place = draw((unsigned)made->length), behind = made->length - place - 1;
    unsigned way = draw(4);
    uint8_t byte = (uint8_t)(draw(2) == 0 ? draw(256) : draw(20));
    if (way == 0) {
        memmove(made->bytes + place, made->bytes + place + 1, behind);
        made->length--;
    } else if (way == 1 && made->length < FILE_BYTES) {
        memmove(made->bytes + place + 1, made->bytes + place, behind + 1);
        made->bytes[place] = byte;
        made->length++;
    } else {
        made->bytes[place] = byte;
    }
}

/* Does a kind with this name have a row in its table? */
static inline bool is_listed(const char *name) { return strcmp(name, UNLISTED_KIND) != 0; }

/* The text begins with the place, which is in the file or at its end. */
static inline void try_text(const char *text, struct file file)
{
    size_t byte = 0;
    int read = 0;
    bool has_place = sscanf(text, "byte %zu%n", &byte, &read) == 1 && read > 0;
    expect(has_place && byte <= file.length, text, file);
    expect(strstr(text, ": ") != NULL && strlen(text) > 20 && strlen(text) < MESSAGE_BYTES - 1, text, file);
}

/* Says how many things did not hold, and ends the program: the last call. */
static inline int end_test(const char *what)
{
    printf("%s: %zu failures\n", what, failures);
    return program_end(failures == 0 ? STATUS_DONE : STATUS_REFUSED);
}

#endif
