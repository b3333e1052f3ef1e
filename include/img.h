/* IMG drawings: check or draw a program of the IMG language, or write its one
 * text.
 *
 * The functions are in libimg.a, which `tools/build` builds (x86-64).
 * They allocate nothing, keep nothing between calls, and may be called from
 * several threads at once, each with slices of its own.
 *
 * A slice is a pointer and the number of its elements. What it holds before a
 * call does not matter. The pointer must not be null, also where the number is
 * 0, words must be aligned as uint64_t is, and no two slices of a call may
 * overlap, unless neither is written.
 *
 * docs/INTERFACE.md tells the same at more length, README.md what each number
 * means.
 */
#ifndef IMG_H
#define IMG_H

#include <stddef.h>
#include <stdint.h>

/* The version of the library, its header and the programs. */
#define IMG_VERSION "0.1.0"

#ifdef __cplusplus
extern "C" {
#endif

/* How many elements each work slice must have; it may have more. `words` and
 * `texts` depend on the counts granted. */
#define IMG_TOKENS ((size_t)8193)
#define IMG_CODE ((size_t)16384)
#define IMG_WORDS(shapes, entries, calls) \
    ((size_t)262416 + (size_t)5 * (size_t)(shapes) + \
     ((size_t)5 + (size_t)(calls)) * (size_t)(entries))
#define IMG_TEXTS(text_bytes) ((size_t)(text_bytes))

/* The most that can be granted; more gives the number 71. Of calls, the
 * procedures under way at once, at least one is granted, since main is one. */
#define IMG_MOST_STEPS UINT64_C(4294967295)
#define IMG_MOST_SHAPES UINT64_C(65535)
#define IMG_MOST_ENTRIES UINT64_C(65535)
#define IMG_MOST_TEXT_BYTES UINT64_C(65535)
#define IMG_MOST_CALLS UINT64_C(64)

/* The most bytes that a program may have; more gives the number 73. A text has
 * no more either: more gives 82. */
#define IMG_MOST_PROGRAM ((size_t)32768)

/* A function needs less stack than this many bytes, by the calls granted.
 * With all 64 that is more than some threads have: see docs/INTERFACE.md. */
#define IMG_STACK(calls) ((size_t)81920 * (size_t)(calls))

/* An answer has four words. A function writes as many as `answer` has room
 * for, and returns the number whether or not there is room. */
#define IMG_ANSWER ((size_t)4)
enum {
    IMG_NUMBER = 0, /* 0: a picture, a text, or well formed; else 10 to 82 */
    IMG_PLACE = 1,  /* the byte of the program that the number names */
    IMG_STEPS = 2,  /* the steps counted */
    IMG_LENGTH = 3  /* the length of the picture or text; with 80 or 82 the
                     * length it needs */
};

/* Says whether a program is well formed. Nothing is taken of the counts; they
 * are only asked about their ranges. */
uint64_t img_check(const uint8_t *program, size_t program_length,
                   uint64_t steps, uint64_t shapes,
                   uint64_t entries, uint64_t text_bytes, uint64_t calls,
                   uint64_t *tokens, size_t tokens_length,
                   uint64_t *code, size_t code_length,
                   uint64_t *answer, size_t answer_length);

/* Writes the one text of a program to the front of `out`: programs that differ
 * only in white space, needless parentheses and the spelling of constants have
 * the same. Bytes of `out` behind the text stay as they were, and so does all
 * of `out` after a number. Nothing is run or taken, as with img_check.
 *
 * A text that is longer than `out`, or than IMG_MOST_PROGRAM, gives the number
 * 82, with its length. So an `out` of IMG_MOST_PROGRAM bytes is always enough
 * for a text that can be given. */
uint64_t img_text(const uint8_t *program, size_t program_length,
                  uint64_t steps, uint64_t shapes,
                  uint64_t entries, uint64_t text_bytes, uint64_t calls,
                  uint64_t *tokens, size_t tokens_length,
                  uint64_t *code, size_t code_length,
                  uint8_t *out, size_t out_length,
                  uint64_t *answer, size_t answer_length);

/* Runs a program and writes its picture to the front of `out`. Bytes of `out`
 * behind the picture stay as they were, and so does all of `out` after a
 * number.
 *
 * A picture that is longer than `out` gives the number 80, with the length it
 * needs and the steps of its run. So an `out` of length 0 tells a picture's
 * length; its pointer must not be null either. */
uint64_t img_draw(const uint8_t *program, size_t program_length,
                  int32_t width, int32_t height,
                  uint64_t steps, uint64_t shapes,
                  uint64_t entries, uint64_t text_bytes, uint64_t calls,
                  uint64_t *tokens, size_t tokens_length,
                  uint64_t *code, size_t code_length,
                  uint64_t *words, size_t words_length,
                  uint8_t *texts, size_t texts_length,
                  uint8_t *out, size_t out_length,
                  uint64_t *answer, size_t answer_length);

/* What a number says, in plain words; tools/numbers writes these lines. */
static inline const char *img_sentence(uint64_t number)
{
    switch (number) {
    case 10:
        return "the drawing is not written as the language asks from here on";
    case 20:
        return "a value is of the wrong kind, the procedure is not known, it has too few or too many arguments, or a table has no such key";
    case 30:
        return "a shape is used that `destroyShape` or `clearScene` destroyed";
    case 40:
        return "a table is made with a negative size";
    case 50:
        return "a variable is used that is not declared by then";
    case 60:
        return "a variable is declared, or a procedure's name is defined, a second time";
    case 70:
        return "a division, or a remainder, by 0";
    case 71:
        return "a slice is too short, or a granted count is out of its range";
    case 72:
        return "width and height are not both at least 1, or the sheet's first line is not `width height`";
    case 73:
        return "the drawing has more than 32,768 bytes";
    case 74:
        return "the drawing has more than 8,192 tokens (names, numbers, signs); this is the first one too many";
    case 75:
        return "this opens a 65th level of brackets and bodies, and there are 64";
    case 76:
        return "no shape is left of those granted";
    case 77:
        return "no entry for a table or a group is left of those granted";
    case 78:
        return "too few bytes for joined strings are left of those granted";
    case 79:
        return "no step is left of those granted";
    case 80:
        return "the picture is longer than the place lent for it";
    case 81:
        return "no call is left of those granted";
    case 82:
        return "the drawing's one text is longer than 32,768 bytes, or than the place lent for it";
    default:
        return "there is no such number";
    }
}

/* When a function returns, all of each work slice (tokens, code, words, texts)
 * holds zeros; only after 71 each is as it was. */

#ifdef __cplusplus
}
#endif

#endif
