/*
 * Prints the result text of a sheet, or refused,number,place.
 *
 *     pair [-c | -b BYTES] [FILE]
 *
 * reads the sheet from FILE, or else from standard input. With -c it checks
 * the sheet only, and prints its sizes; with -b the result text has room for
 * so many bytes, at most WOOL_MOST_RESULT.
 */
#include <stdio.h>
#include <stdlib.h>
#include <string.h>

#include "wool.h"

/* Reads all of a file; the text is the caller's to free. */
static uint8_t *read_all(FILE *file, size_t *length)
{
    size_t room = 4096;
    uint8_t *text = malloc(room);
    *length = 0;
    while (text != NULL) {
        *length += fread(text + *length, 1, room - *length, file);
        if (*length < room)
            break;
        room *= 2;
        uint8_t *longer = realloc(text, room);
        if (longer == NULL)
            free(text);
        text = longer;
    }
    return text;
}

static void print_sizes(const uint8_t *text, size_t length)
{
    struct wool_verdict verdict = wool_check(text, length);
    if (verdict.number != 0)
        printf("refused,%u,%u\n", verdict.number, verdict.place);
    else
        printf("%u,%u,%u\n", verdict.parcels, verdict.entries, verdict.stores);
}

static void print_pairs(const uint8_t *text, size_t length, size_t room)
{
    uint8_t out[WOOL_MOST_RESULT];
    struct wool_answer answer = wool_pair(text, length, out, room);
    if (answer.number != 0)
        printf("refused,%u,%u\n", answer.number, answer.place);
    else
        fwrite(out, 1, answer.written, stdout);
}

int main(int count, char **args)
{
    int next = 1;
    int check = 0;
    size_t room = WOOL_MOST_RESULT;
    if (next < count && strcmp(args[next], "-c") == 0) {
        check = 1;
        next++;
    } else if (next + 1 < count && strcmp(args[next], "-b") == 0) {
        size_t asked = strtoul(args[next + 1], NULL, 10);
        if (asked < room)
            room = asked;
        next += 2;
    }
    FILE *file = next < count ? fopen(args[next], "rb") : stdin;
    if (file == NULL) {
        perror(args[next]);
        return 1;
    }
    size_t length;
    uint8_t *text = read_all(file, &length);
    if (text == NULL || ferror(file)) {
        fputs("the sheet cannot be read\n", stderr);
        return 1;
    }
    if (check)
        print_sizes(text, length);
    else
        print_pairs(text, length, room);
    free(text);
    return fflush(stdout) == 0 ? 0 : 1;
}
