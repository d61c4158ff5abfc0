#define _POSIX_C_SOURCE 200809L /* for getdelim */
#include "score_words.h"

#include "program.h"
#include "text.h"

#include <errno.h>
#include <stdarg.h>
#include <stdio.h>
#include <stdlib.h>
#include <string.h>

void stop_at(const struct reader *reader, size_t line, const char *format, ...)
{
    char message[MESSAGE_BYTES];
    va_list list;
    va_start(list, format);
    vsnprintf(message, sizeof message, format, list);
    va_end(list);
    stop("%s, line %zu: %s", reader->path, line, message);
}

void stop_for_due(const struct reader *reader, const char *due)
{
    const struct token *next = &reader->next;
    char text[LANE_NAME_BYTES] = "", clean[LANE_NAME_BYTES];
    memcpy(text, next->text, next->length < sizeof text ? next->length : sizeof text - 1);
    clean_text(clean, sizeof clean, text);
    if (next->kind == TOKEN_END || next->kind == TOKEN_LINE_END) {
        stop_at(reader, next->line, "the %s ends where %s is due", next->kind == TOKEN_END ? "score" : "line", due);
    }
    stop_at(reader, next->line, next->kind == TOKEN_NAME ? "the name \"%s\" where %s is due" : "\"%s\" where %s is due",
            clean, due);
}

/* Goes over blanks and comments. */
static void skip_blanks(struct reader *reader)
{
    while (*reader->at != '\0' && strchr(" \t\r\n\f\v#", *reader->at) != NULL) {
        reader->line += *reader->at == '\n';
        reader->at += *reader->at == '#' ? strcspn(reader->at, "\n") : 1;
    }
}

/* The token that begins where the reader is. */
static struct token find_token(const struct reader *reader)
{
    struct token token = {TOKEN_WORD, reader->at, 1, reader->line};
    if (*reader->at == '\0') {
        token.kind = TOKEN_END;
        token.length = 0;
    } else if (*reader->at == '(') {
        token.kind = TOKEN_OPEN;
    } else if (*reader->at == ')') {
        token.kind = TOKEN_CLOSE;
    } else if (*reader->at == '"') {
        token.kind = TOKEN_NAME;
        token.text++;
        token.length = strcspn(token.text, "\"\n");
    } else {
        token.length = strcspn(token.text, " \t\r\n\f\v#()\"");
    }
    return token;
}

/* Goes on to the next token. */
static void advance(struct reader *reader)
{
    struct reader before = *reader;
    skip_blanks(reader);
    struct token token = find_token(reader);
    if (reader->kept_line != 0 && (token.line != reader->kept_line || token.kind == TOKEN_END)) {
        *reader = before;
        reader->next = (struct token){TOKEN_LINE_END, before.at, 0, before.kept_line};
        return;
    }
    reader->at = token.text + token.length;
    if (token.kind == TOKEN_NAME && *reader->at++ != '"') {
        stop_at(reader, token.line, "a name has no quotation mark at its end");
    }
    reader->next = token;
}

void begin_line(struct reader *reader) { reader->kept_line = reader->next.line; }

void end_line(struct reader *reader)
{
    if (reader->next.kind != TOKEN_LINE_END && reader->next.kind != TOKEN_END) {
        stop_for_due(reader, "the end of the line");
    }
    reader->kept_line = 0;
    advance(reader);
}

bool is_word(const struct token *token, const char *word, size_t length)
{
    return token->kind == TOKEN_WORD && token->length == length && strncmp(token->text, word, length) == 0;
}

bool take_words(struct reader *reader, const char *words)
{
    struct reader behind = *reader;
    while (*words != '\0') {
        size_t length = strcspn(words, " ");
        if (!is_word(&behind.next, words, length)) {
            return false;
        }
        advance(&behind);
        words += length + strspn(words + length, " ");
    }
    *reader = behind;
    return true;
}

bool take_kind(struct reader *reader, kind_words *words_of, uint8_t *kind)
{
    struct reader behind = *reader;
    size_t longest = 0;
    for (unsigned tried = 0; tried <= UINT8_MAX; tried++) {
        const char *words = words_of((uint8_t)tried);
        struct reader trial = *reader;
        if (words != NULL && strlen(words) > longest && take_words(&trial, words)) {
            longest = strlen(words);
            behind = trial;
            *kind = (uint8_t)tried;
        }
    }
    *reader = behind;
    return longest > 0;
}

void stop_for_kind(const struct reader *reader, kind_words *words_of, const char *others)
{
    char due[MESSAGE_BYTES / 2];
    struct text text = text_begin(due, sizeof due);
    const char *before = "";
    for (unsigned kind = 0; kind <= UINT8_MAX; kind++) {
        if (words_of((uint8_t)kind) != NULL) {
            text_add(&text, "%s\"%s\"", before, words_of((uint8_t)kind));
            before = ", ";
        }
    }
    text_add(&text, "%s", others);
    stop_for_due(reader, due);
}

/* Tells which number is due, or which range of them. */
static noreturn void stop_for_number(const struct reader *reader, const char *what, size_t least, size_t most)
{
    char due[MESSAGE_BYTES / 2];
    struct text text = text_begin(due, sizeof due);
    text_add(&text, least == most ? "%s %zu" : "a %s from %zu", what, least);
    if (least != most) {
        text_add(&text, " to %zu", most);
    }
    stop_for_due(reader, due);
}

size_t take_number(struct reader *reader, const char *what, size_t least, size_t most)
{
    char digits[24] = "";
    uint64_t number = 0;
    bool read = reader->next.kind == TOKEN_WORD && reader->next.length < sizeof digits;
    if (read) {
        memcpy(digits, reader->next.text, reader->next.length);
    }
    if (!read || !read_number(digits, &number) || number < least || number > most) {
        stop_for_number(reader, what, least, most);
    }
    advance(reader);
    return (size_t)number;
}

size_t take_value(struct reader *reader, unsigned value_bytes)
{
    return take_number(reader, "value", 0, ((size_t)1 << 8 * value_bytes) - 1);
}

void take_name(struct reader *reader, char name[LANE_NAME_BYTES])
{
    char text[LANE_NAME_BYTES] = "";
    if (reader->next.kind != TOKEN_NAME) {
        stop_for_due(reader, "a name in quotation marks");
    }
    if (reader->next.length < 1 || reader->next.length >= sizeof text) {
        stop_at(reader, reader->next.line, "a name has 1 to %d bytes, and this one has %zu", LANE_NAME_BYTES - 1,
                reader->next.length);
    }
    memcpy(text, reader->next.text, reader->next.length);
    clean_text(name, LANE_NAME_BYTES, text);
    if (strcmp(name, text) != 0) {
        stop_at(reader, reader->next.line, "the name \"%s\" has a character that cannot be printed, here a ?", name);
    }
    if (name[0] == ' ' || name[strlen(name) - 1] == ' ') {
        stop_at(reader, reader->next.line, "the name \"%s\" begins or ends with a blank", name);
    }
    advance(reader);
}

bool take_token(struct reader *reader, enum token_kind kind)
{
    bool comes = reader->next.kind == kind;
    if (comes) {
        advance(reader);
    }
    return comes;
}

bool is_number(const struct token *token)
{
    return token->kind == TOKEN_WORD && token->text[0] >= '0' && token->text[0] <= '9';
}

/* The text of a file, up to its end; the caller frees it. */
static char *read_text(const char *path)
{
    char *text = NULL;
    size_t room = 0;
    errno = 0;
    FILE *stream = fopen(path, "r");
    if (stream == NULL) {
        stop("%s cannot be opened: %s", path, strerror(errno));
    }
    ssize_t length = getdelim(&text, &room, '\0', stream);
    if (text == NULL || (length < 0 && !feof(stream))) {
        stop("%s cannot be read: %s", path, strerror(errno));
    }
    if (length > 0 && text[length - 1] == '\0') {
        stop("%s is no text: it has a byte 0", path);
    }
    text[length < 0 ? 0 : length] = '\0';
    fclose(stream);
    return text;
}

/* Some editors put a mark of the encoding in front of a text, which nobody sees. */
static const char *behind_mark(const char *text)
{
    static const char mark[] = "\xef\xbb\xbf";
    return strncmp(text, mark, strlen(mark)) == 0 ? text + strlen(mark) : text;
}

void reader_begin(struct reader *reader, const char *path)
{
    char *text = read_text(path);
    *reader = (struct reader){.path = path, .text = text, .at = behind_mark(text), .line = 1};
    advance(reader);
}

void reader_end(struct reader *reader) { free(reader->text); }
