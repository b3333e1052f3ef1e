/* One call of the library, chosen by an input, and all that can be asked of it without another interpreter. A failure aborts.
 *
 * The first 27 bytes of an input choose the call, missing ones being 0, and the rest is the program. Numbers have their low byte first.
 *
 *    0      operation: 0 checking and the text, 1 drawing (modulo 2)
 *    1      lengths of tokens, code, words and texts, two bits each from the low end: 1 is one element short, 2 is five longer, else as needed
 *    2      the byte that fills every slice before the call
 *    3      from the low end, whether steps, shapes, entries and text bytes lie beyond their range by what they are
 *    4, 8   width and height, 4 bytes each
 *    12     steps, 4 bytes, at most 250,000
 *    16     shapes, entries and text bytes, 2 bytes each
 *    22     length of the out slice, 4 bytes, at most 262,144
 *    26     calls, modulo 66, so that 0 and 65 lie out of their range
 *
 * Every slice ends where a page begins that nothing may touch, and has a page like it before the largest that it can be. Compiled with -DMEMCHECK and run under
 * valgrind, what slices hold before a call counts as undefined, so that valgrind tells if anything depends on it.
 */
#include <stdint.h>
#include <stdio.h>
#include <stdlib.h>
#include <string.h>
#include <sys/mman.h>
#include <unistd.h>

#ifdef MEMCHECK
#include <valgrind/memcheck.h>
#define FORGET(bytes, size) (void)VALGRIND_MAKE_MEM_UNDEFINED(bytes, size)
#define RECALL(bytes, size) (void)VALGRIND_MAKE_MEM_DEFINED(bytes, size)
#define IS_KNOWN(bytes, size) (VALGRIND_CHECK_MEM_IS_DEFINED(bytes, size) == 0)
#else
#define FORGET(bytes, size) ((void)0)
#define RECALL(bytes, size) ((void)0)
#define IS_KNOWN(bytes, size) 1
#endif

#include "../../include/img.h"

enum { HEAD = 27, LONGER = 5, MOST_STEPS = 250000, MOST_OUT = 262144, MOST_PROGRAM = 65536, PROGRAM_BYTES = 32768 };
enum { CHECKING, DRAWING };

/* A stretch of memory between two pages that nothing may touch. */
struct Region {
    uint8_t *end;
};

static struct Region region(size_t most) {
    size_t page = (size_t)sysconf(_SC_PAGESIZE);
    size_t size = (most + page - 1) / page * page;
    uint8_t *start = mmap(NULL, size + 2 * page, PROT_READ | PROT_WRITE, MAP_PRIVATE | MAP_ANONYMOUS, -1, 0);
    if (start == MAP_FAILED || mprotect(start, page, PROT_NONE) || mprotect(start + page + size, page, PROT_NONE)) {
        perror("memory");
        exit(2);
    }
    return (struct Region){start + page + size};
}

/* A slice of bytes at the end of a region. */
struct Slice {
    uint8_t *bytes;
    size_t size;
};

static struct Slice slice(struct Region region, size_t size, uint8_t fill) {
    struct Slice s = {region.end - size, size};
    memset(s.bytes, fill, size);
    FORGET(s.bytes, s.size);
    return s;
}

static int holds(struct Slice s, size_t from, uint8_t byte) {
    RECALL(s.bytes, s.size);
    if (from >= s.size) {
        return 1;
    }
    /* The first is that byte, and each other is as the one before it. */
    return s.bytes[from] == byte && memcmp(s.bytes + from, s.bytes + from + 1, s.size - from - 1) == 0;
}

static struct Region programs, tokens_at, code_at, words_at, texts_at, outs, seconds, answers;

static void make_regions(void) {
    programs = region(MOST_PROGRAM);
    tokens_at = region((8193 + LONGER) * 8);
    code_at = region((16384 + LONGER) * 8);
    words_at = region((262416 + 5 * 131071 + (5 + 65) * 131071 + LONGER) * 8);
    texts_at = region(131071 + LONGER);
    outs = region(MOST_OUT);
    seconds = region(PROGRAM_BYTES);
    answers = region(32);
}

static const uint8_t *current;
static size_t current_length;

static void ask(int holds, const char *what) {
    if (!holds) {
        fprintf(stderr, "not so: %s\n", what);
        abort();
    }
}

static uint64_t number_at(size_t at, size_t size) {
    uint64_t number = 0;
    for (size_t i = size; i-- > 0;) {
        number = number << 8 | (at + i < current_length ? current[at + i] : 0);
    }
    return number;
}

static uint64_t least(uint64_t a, uint64_t b) { return a < b ? a : b; }

#ifdef __AFL_COMPILER
/* The library carries no marks for the fuzzer, so what it answers leads the way. The fuzzer's map is found by name only: its compiler declares it too. */
static void mark(uint64_t a, uint64_t b, uint64_t c) {
    uint64_t mixed = ((a * 1000003 + b) * 1000003 + c + 1) * 0x9e3779b97f4a7c15u;
    uint8_t **map;
    __asm__("movq __afl_area_ptr@GOTPCREL(%%rip), %0" : "=r"(map));
    (*map)[mixed >> 48]++;
}
#else
static void mark(uint64_t a, uint64_t b, uint64_t c) {
    (void)a;
    (void)b;
    (void)c;
}
#endif

/* A number's size, coarsely: its bits, and the one below the highest. */
static uint64_t coarse(uint64_t number) {
    uint64_t bits = 0;
    uint64_t rest = number;
    while (rest > 3) {
        rest >>= 1;
        bits++;
    }
    return 4 * bits + rest;
}

/* What a byte can begin, coarsely. */
static uint64_t class_of(uint8_t byte) {
    if ((byte | 32) >= 'a' && (byte | 32) <= 'z') {
        return 'a';
    }
    if (byte >= '0' && byte <= '9') {
        return '0';
    }
    return byte < 127 ? byte : 127;
}

static void lead(int operation, const uint64_t answer[4], const uint8_t *program, struct Slice out) {
    uint64_t number = answer[0];
    uint64_t place = answer[1];
    mark(1, number, (uint64_t)operation);
    mark(2, number, coarse(place));
    mark(3, number, coarse(answer[2]));
    mark(4, number, coarse(answer[3]));
    if (number == 10 && place > 0) {
        uint64_t before = place - 1;
        while (before > 0 && program[before] <= ' ') {
            before--;
        }
        mark(5, class_of(program[before]), HEAD + place < current_length ? class_of(program[place]) : 128);
    }
    if (number == 0 && operation == DRAWING) {
        uint64_t seen[4] = {0};
        for (uint64_t i = 0; i + 1 < answer[3]; i++) {
            if (out.bytes[i] == '<') {
                const char *kinds = "lert";
                const char *kind = strchr(kinds, out.bytes[i + 1]);
                if (kind && *kind) {
                    seen[kind - kinds]++;
                }
            }
        }
        for (uint64_t kind = 0; kind < 4; kind++) {
            mark(6, kind, coarse(seen[kind]));
        }
    }
}

static int in(uint64_t number, const uint64_t *list, size_t length) {
    for (size_t i = 0; i < length; i++) {
        if (list[i] == number) {
            return 1;
        }
    }
    return 0;
}

static void check_picture(struct Slice out, uint64_t length, int32_t width, int32_t height) {
    char front[200];
    const char *back = "</g>\n</svg>\n";
    int size = snprintf(front, sizeof front,
                        "<?xml version=\"1.0\"?>\n<svg viewBox=\"0 0 %d %d\" xmlns=\"http://www.w3.org/2000/svg\" "
                        "version=\"1.1\">\n<g stroke=\"black\" fill=\"black\">\n",
                        width, height);
    ask(length >= (uint64_t)size + strlen(back), "a picture has its frame");
    ask(memcmp(out.bytes, front, (size_t)size) == 0, "a picture's front");
    ask(memcmp(out.bytes + length - strlen(back), back, strlen(back)) == 0, "a picture's end");
    for (uint64_t i = 0; i < length; i++) {
        ask(out.bytes[i] == '\n' || (out.bytes[i] >= ' ' && out.bytes[i] < 127), "a picture's bytes can be printed");
    }
}

/* The text of a program that checking answered with `checked`, asked for with the same counts and work slices, and an out slice of `out_length` bytes. */
static void check_text(struct Slice program, const uint64_t counts[5], struct Slice tokens, struct Slice code, uint8_t fill, size_t out_length,
                       const uint64_t checked[4]) {
    uint8_t left = checked[0] == 71 ? fill : 0;
    struct Slice out = slice(outs, out_length, fill);
    tokens = slice(tokens_at, tokens.size, fill);
    code = slice(code_at, code.size, fill);
    uint64_t *t = (uint64_t *)tokens.bytes;
    uint64_t *c = (uint64_t *)code.bytes;
    uint64_t answer[4] = {255, 255, 255, 255};
    uint64_t number = img_text(program.bytes, program.size, counts[0], counts[1], counts[2], counts[3], counts[4], t, tokens.size / 8, c, code.size / 8,
                               out.bytes, out_length, answer, 4);
    ask(IS_KNOWN(answer, 32) && IS_KNOWN(&number, sizeof number), "a text's answer depends on nothing that slices held");
    ask(number == answer[0] && answer[2] == 0, "the number is returned as well, and nothing is run");
    ask(holds(tokens, 0, left), "tokens are zero behind a text, or kept after 71");
    ask(holds(code, 0, left), "code is zero behind a text, or kept after 71");
    uint64_t length = answer[3];
    mark(7, number, coarse(length));
    if (checked[0] != 0) {
        ask(memcmp(answer, checked, sizeof answer) == 0, "a number of checking is that of the text");
        ask(holds(out, 0, fill), "the out slice is kept after a number");
        return;
    }
    ask(answer[1] == 0 && length > 0, "a text has a length and no place");
    ask((number == 82) == (length > out_length || length > PROGRAM_BYTES), "82 exactly for a text that does not fit");
    if (number == 82) {
        ask(holds(out, 0, fill), "the out slice is kept after 82");
        return;
    }
    ask(number == 0, "a text or 82");
    ask(IS_KNOWN(out.bytes, length), "a text depends on nothing that slices held");
    ask(holds(out, (size_t)length, fill), "the out slice is kept behind a text");
    for (uint64_t i = 0; i < length; i++) {
        ask(out.bytes[i] == '\n' || (out.bytes[i] >= ' ' && out.bytes[i] < 127), "a text's bytes can be printed");
    }

    /* The text is well formed, and is its own text. */
    struct Slice again = slice(seconds, (size_t)length, fill);
    ask(img_check(out.bytes, (size_t)length, 0, 0, 0, 0, 1, t, tokens.size / 8, c, code.size / 8, answer, 4) == 0, "a text is well formed");
    ask(img_text(out.bytes, (size_t)length, 0, 0, 0, 0, 1, t, tokens.size / 8, c, code.size / 8, again.bytes, again.size, answer, 4) == 0, "a text has a text");
    ask(answer[3] == length && memcmp(out.bytes, again.bytes, (size_t)length) == 0, "the text of a text is itself");
}

static void one(const uint8_t *input, size_t input_length) {
    current = input;
    current_length = input_length;
    int operation = (int)(number_at(0, 1) % 2);
    uint64_t lengths = number_at(1, 1);
    uint8_t fill = (uint8_t)number_at(2, 1);
    uint64_t beyond = number_at(3, 1) & 15;
    int32_t width = (int32_t)number_at(4, 4);
    int32_t height = (int32_t)number_at(8, 4);
    uint64_t steps = least(number_at(12, 4), MOST_STEPS) + ((beyond & 1) << 32);
    uint64_t shapes = number_at(16, 2) + ((beyond >> 1 & 1) << 16);
    uint64_t entries = number_at(18, 2) + ((beyond >> 2 & 1) << 16);
    uint64_t bytes = number_at(20, 2) + ((beyond >> 3 & 1) << 16);
    size_t out_length = (size_t)least(number_at(22, 4), MOST_OUT);
    uint64_t calls = number_at(26, 1) % 66;

    size_t program_length = input_length > HEAD ? (size_t)least(input_length - HEAD, MOST_PROGRAM) : 0;
    struct Slice program = slice(programs, program_length, 0);
    if (program_length > 0) {
        memcpy(program.bytes, input + HEAD, program_length);
    }

    size_t need[4] = {8193, 16384, 262416 + 5 * shapes + (5 + calls) * entries, bytes};
    size_t lent[4];
    int is_short[4];
    for (int i = 0; i < 4; i++) {
        uint64_t choice = lengths >> (2 * i) & 3;
        lent[i] = need[i];
        if (choice == 1 && need[i] > 0) {
            lent[i]--;
        } else if (choice == 2) {
            lent[i] += LONGER;
        }
        is_short[i] = lent[i] < need[i];
    }
    struct Slice tokens = slice(tokens_at, lent[0] * 8, fill);
    struct Slice code = slice(code_at, lent[1] * 8, fill);
    struct Slice words = slice(words_at, operation == CHECKING ? 0 : lent[2] * 8, fill);
    struct Slice texts = slice(texts_at, operation == CHECKING ? 0 : lent[3], fill);
    struct Slice out = slice(outs, operation == DRAWING ? out_length : 0, fill);
    struct Slice answer_at = slice(answers, 32, 255);
    uint64_t *t = (uint64_t *)tokens.bytes;
    uint64_t *c = (uint64_t *)code.bytes;
    uint64_t *w = (uint64_t *)words.bytes;
    uint64_t *answer = (uint64_t *)answer_at.bytes;

    uint64_t returned;
    if (operation == CHECKING) {
        returned =
            img_check(program.bytes, program_length, steps, shapes, entries, bytes, calls, t, lent[0], c, lent[1], answer, 4);
    } else {
        returned = img_draw(program.bytes, program_length, width, height, steps, shapes, entries, bytes, calls, t, lent[0],
                            c, lent[1], w, lent[2], texts.bytes, lent[3], out.bytes, out_length, answer, 4);
    }

    ask(IS_KNOWN(answer, 32), "the answer depends on nothing that slices held");
    ask(IS_KNOWN(&returned, sizeof returned) && returned == answer[0], "the number is returned as well");
    uint64_t number = answer[0];
    uint64_t place = answer[1];
    uint64_t length = answer[3];
    int runs = operation == DRAWING;
    int refused = beyond || calls < 1 || calls > 64 || is_short[0] || is_short[1] || (runs && (is_short[2] || is_short[3]));
    int no_sheet = runs && (width < 1 || height < 1);

    /* The program is only read. */
    ask(program_length == 0 || memcmp(program.bytes, input + HEAD, program_length) == 0, "the program keeps its bytes");

    /* The questions before reading. */
    ask((number == 71) == refused, "71 exactly for short slices and counts beyond their ranges");
    ask((number == 72) == (!refused && no_sheet), "72 exactly for a side below 1");
    ask((number == 73) == (!refused && !no_sheet && program_length > PROGRAM_BYTES), "73 exactly for long programs");
    if (number >= 71 && number <= 73) {
        ask(place == 0 && answer[2] == 0 && length == 0, "nothing else is told before reading");
    }

    /* Work slices. */
    uint8_t left = number == 71 ? fill : 0;
    ask(holds(tokens, 0, left), "tokens are zero, or kept after 71");
    ask(holds(code, 0, left), "code is zero, or kept after 71");
    ask(holds(words, 0, left), "words are zero, or kept after 71");
    ask(holds(texts, 0, left), "texts are zero, or kept after 71");

    /* The answer. */
    static const uint64_t reading[] = {10, 74, 75};
    static const uint64_t running[] = {20, 30, 40, 50, 60, 70, 76, 77, 78, 79, 81};
    /* A name that is defined twice. Main's own 60 is at 0, where a `def` stands too unless white space does. */
    int twice = number == 60 && answer[2] == 0 && place + 3 < program_length && memcmp(program.bytes + place, "def", 3) == 0;
    int read = in(number, reading, 3) || twice;
    int ran = in(number, running, 11) && !twice;
    ask(number == 0 || (number >= 71 && number <= 73) || read || (runs && (ran || number == 80)), "a number of the table");
    ask(answer[2] <= steps || !runs, "no more steps than were granted");
    ask(number != 79 || answer[2] == steps, "79 once all steps are used");
    if (!runs || read) {
        ask(answer[2] == 0 && length == 0, "checking and reading tell neither steps nor a length");
    }
    if (read) {
        ask(place <= program_length, "a place in the program or at its end");
    }
    if (ran) {
        ask(place < program_length && length == 0, "a statement's place and no length");
        ask(place > 0 ? answer[2] > 0 || number == 79 : number == 20 || number == 60 || number == 79, "place 0 only for main's parameters and the picture's steps");
    }
    if (number == 0 && runs) {
        ask(place == 0 && answer[2] > 0 && length > 0, "a picture with its length and steps");
    }
    if (number == 80) {
        ask(place == 0 && answer[2] > 0 && length > out_length, "80 with the length that is needed");
    }

    /* The out slice. */
    size_t drawn = 0;
    if (runs && number == 0) {
        ask(length <= out_length, "a picture fits");
        ask(IS_KNOWN(out.bytes, length), "the picture depends on nothing that slices held");
        check_picture(out, length, width, height);
        drawn = (size_t)length;
    }
    ask(holds(out, drawn, fill), "the out slice is kept behind a picture and after a number");
    lead(operation, answer, program.bytes, out);

    if (operation == CHECKING) {
        const uint64_t counts[5] = {steps, shapes, entries, bytes, calls};
        uint64_t checked[4];
        memcpy(checked, answer, sizeof checked);
        check_text(program, counts, tokens, code, fill, out_length, checked);
    }
}

#ifdef __AFL_COMPILER
__AFL_FUZZ_INIT();

int main(void) {
    make_regions();
    __AFL_INIT();
    const uint8_t *input = __AFL_FUZZ_TESTCASE_BUF;
    while (__AFL_LOOP(20000)) {
        one(input, (size_t)__AFL_FUZZ_TESTCASE_LEN);
    }
    return 0;
}
#else
static void file(FILE *from) {
    static uint8_t input[HEAD + MOST_PROGRAM];
    one(input, fread(input, 1, sizeof input, from));
}

/* Tries each file named, or standard input if none is. */
int main(int count, char **names) {
    make_regions();
    if (count < 2) {
        file(stdin);
    }
    for (int i = 1; i < count; i++) {
        FILE *from = fopen(names[i], "rb");
        if (!from) {
            perror(names[i]);
            return 2;
        }
        fprintf(stderr, "%s\n", names[i]);
        file(from);
        fclose(from);
    }
    printf("%d tried\n", count < 2 ? 1 : count - 1);
    return 0;
}
#endif
