/* Draws one IMG program: draw WIDTH HEIGHT FILE
 *
 * The picture goes to standard output. If there is none, `error N at P` goes
 * there instead, N the number and P the byte of the file that it names; what
 * the number says goes to standard error, and the exit status is 1. It is 2 if the call is wrong or the file or the output
 * fails. Grants and the longest picture are those of imgdraw.
 */
#include <errno.h>
#include <inttypes.h>
#include <stdio.h>
#include <stdlib.h>
#include <string.h>

#include "img.h"

enum {
    STEPS = 1000000,
    SHAPES = 1024,
    ENTRIES = 1024,
    TEXT_BYTES = 16384,
    CALLS = 64,
    OUT_BYTES = 65536
};

/* One byte more than a program may have is enough to see that it has too
 * many. */
static uint8_t program[IMG_MOST_PROGRAM + 1];

static uint64_t tokens[IMG_TOKENS];
static uint64_t code[IMG_CODE];
static uint64_t words[IMG_WORDS(SHAPES, ENTRIES, CALLS)];
static uint8_t texts[IMG_TEXTS(TEXT_BYTES)];
static uint8_t out[OUT_BYTES];

/* A number of 32 bits; the library asks whether a side is at least 1. */
static int read_side(const char *text, int32_t *side)
{
    char *end;
    errno = 0;
    long value = strtol(text, &end, 10);
    if (end == text || *end != '\0' || errno != 0 || value < INT32_MIN || value > INT32_MAX)
        return 0;
    *side = (int32_t)value;
    return 1;
}

static int read_program(const char *name, size_t *length)
{
    FILE *file = fopen(name, "rb");
    if (file == NULL)
        return 0;
    *length = fread(program, 1, sizeof program, file);
    int failed = ferror(file);
    return fclose(file) == 0 && !failed;
}

int main(int count, char **arguments)
{
    int32_t width, height;
    size_t length;
    if (count != 4 || !read_side(arguments[1], &width) || !read_side(arguments[2], &height)) {
        fprintf(stderr, "usage: draw WIDTH HEIGHT FILE\n");
        return 2;
    }
    if (!read_program(arguments[3], &length)) {
        fprintf(stderr, "%s: %s\n", arguments[3], strerror(errno));
        return 2;
    }

    uint64_t answer[IMG_ANSWER];
    uint64_t number = img_draw(program, length, width, height,
                               STEPS, SHAPES, ENTRIES, TEXT_BYTES, CALLS,
                               tokens, sizeof tokens / sizeof tokens[0],
                               code, sizeof code / sizeof code[0],
                               words, sizeof words / sizeof words[0],
                               texts, sizeof texts,
                               out, sizeof out,
                               answer, IMG_ANSWER);

    if (number == 0) {
        fwrite(out, 1, (size_t)answer[IMG_LENGTH], stdout);
    } else {
        printf("error %" PRIu64 " at %" PRIu64 "\n", number, answer[IMG_PLACE]);
        fprintf(stderr, "%s: %s\n", arguments[3], img_sentence(number));
    }
    if (fflush(stdout) != 0 || ferror(stdout)) {
        fprintf(stderr, "standard output cannot be written\n");
        return 2;
    }
    return number == 0 ? 0 : 1;
}
