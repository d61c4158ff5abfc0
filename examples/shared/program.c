#define _POSIX_C_SOURCE 200809L /* for fcntl and flockfile */
#include "program.h"

#include <errno.h>
#include <fcntl.h>
#include <inttypes.h>
#include <stdarg.h>
#include <stdio.h>
#include <stdlib.h>
#include <string.h>
#include <unistd.h>

/* The help of the program that runs, whose first word is its name and whose first line has its words. */
static const char *program_help = "";

/* The first reason for which standard output could not be written; 0 while there is none. */
static int output_error;

static bool is_closed(int stream) { return fcntl(stream, F_GETFD) == -1; }

/* Who closes the error stream wants no messages; the place is taken, so that no file takes it that is opened later. */
static void take_place_of_messages(void)
{
    int opened = open("/dev/null", O_WRONLY);
    if (opened == -1 || dup2(opened, STDERR_FILENO) == -1) {
        exit(STATUS_UNUSABLE);
    }
    if (opened != STDERR_FILENO) {
        close(opened);
    }
}

/* A file opened later would take the place of a closed stream, and what is printed would go into that file. */
static void need_open_streams(void)
{
    bool output_closed = is_closed(STDOUT_FILENO);
    if (is_closed(STDERR_FILENO)) {
        take_place_of_messages();
    }
    if (output_closed) {
        stop("standard output is closed");
    }
}

void program_begin(const char *help, int count, char *const *words)
{
    program_help = help;
    need_open_streams();
    for (int index = 1; index < count; index++) {
        if (strcmp(words[index], "--help") == 0) {
            fputs(help, stdout);
            exit(program_end(STATUS_DONE));
        }
    }
}

static void tell_list(const char *format, va_list list)
{
    flockfile(stderr); /* so that another thread's message is not printed into this one */
    fprintf(stderr, "%.*s: ", (int)strcspn(program_help, " \n"), program_help);
    vfprintf(stderr, format, list);
    fputc('\n', stderr);
    funlockfile(stderr);
}

void tell(const char *format, ...)
{
    va_list list;
    va_start(list, format);
    tell_list(format, list);
    va_end(list);
}

void stop(const char *format, ...)
{
    va_list list;
    va_start(list, format);
    tell_list(format, list);
    va_end(list);
    fflush(stdout);
    _Exit(STATUS_UNUSABLE); /* at once: another thread may be at work, and what is allocated goes with the program */
}

/* Is a word, such as --seed, on the first line of the help? */
static bool is_listed(const char *word)
{
    static const char between[] = " []|\n";
    size_t length = strlen(word);
    bool listed = false;
    for (const char *next = program_help; !listed && *next != '\0' && *next != '\n'; next += strspn(next, between)) {
        size_t bytes = strcspn(next, between);
        listed = bytes == length && strncmp(next, word, length) == 0;
        next += bytes;
    }
    return listed;
}

static const char *what_is_wrong(const char *word)
{
    if (word[0] != '-') {
        return "cannot be used here";
    }
    return is_listed(word) ? "cannot be used like this" : "is not one of its words";
}

void stop_for_words(const char *word)
{
    if (word != NULL) {
        tell("\"%s\" %s", word, what_is_wrong(word));
    }
    stop("the words are: %.*s (--help says more)", (int)strcspn(program_help, "\n"), program_help);
}

/* Notes the reason that errno has, unless an earlier one is known. */
static void note_output_error(void)
{
    if (output_error == 0) {
        output_error = errno;
    }
}

void program_flush(void)
{
    if (fflush(stdout) != 0) {
        note_output_error();
    }
}

int program_end(enum status status)
{
    bool failed = ferror(stdout) != 0;
    errno = 0;
    if (fclose(stdout) != 0 || failed) {
        note_output_error();
        tell("standard output cannot be written%s%s", output_error == 0 ? "" : ": ",
             output_error == 0 ? "" : strerror(output_error));
        return STATUS_UNUSABLE;
    }
    return status;
}

bool read_number(const char *word, uint64_t *number)
{
    char *behind;
    errno = 0;
    *number = strtoull(word, &behind, 10);
    return word[0] >= '0' && word[0] <= '9' && *behind == '\0' && errno == 0;
}

uint64_t number_between(const char *word, uint64_t least, uint64_t most)
{
    uint64_t number;
    if (!read_number(word, &number) || number < least || number > most) {
        tell("\"%s\" where a number from %" PRIu64 " to %" PRIu64 " is due", word, least, most);
        stop_for_words(NULL);
    }
    return number;
}

bool ends_with(const char *path, const char *ending)
{
    size_t length = strlen(path), end = strlen(ending);
    return length >= end && strcmp(path + length - end, ending) == 0;
}

void *memory(size_t count, size_t size)
{
    void *bytes = calloc(count, size);
    if (bytes == NULL) {
        stop("there is not enough memory");
    }
    return bytes;
}
