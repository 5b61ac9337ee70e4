/* The C interface as a program in C uses it.
 *
 *     harness NEW OLD                  prints the line for two files; the status is that of bin/verdict: 0 yes, 1 no, 2 all else
 *     harness --compatible NEW OTHER   the other question
 *     harness --check                  tries each function, both questions, a refused text and areas that are too short: 0 if all is right, else 2
 *
 * Where no line is printed, one line on standard error says why. */
#include "../include/dzaghvori.h"

#include <errno.h>
#include <stdio.h>
#include <string.h>

static const char R[] = "R = +{sum: ![string]; &{ok: ?(float); R | bad: R} | stop: end} .";
static const char N[] = "N = +{sum: ![string]; &{ok: ?(float); N | late: N} | stop: end} .";
static const char U[] = "U = &{sum: ?(string); +{ok: ![float]; U | bad: U} | stop: end} .";

/* R and N have 5 nodes each, and so has the dual of either. */
enum { NODES = 5 };

static uint8_t marks[DZAGHVORI_MARKS(NODES, NODES)];
static uint16_t path[DZAGHVORI_PATH(NODES, NODES)];
static uint16_t scratch[DZAGHVORI_SCRATCH(NODES, NODES)];
static uint8_t line[DZAGHVORI_LINE(NODES, NODES)];

static int checks;
static int failures;

static void check(int right, const char *what) {
    checks++;
    if (!right) {
        failures++;
        printf("harness.c: %s\n", what);
    }
}

static const uint8_t *bytes(const char *text) { return (const uint8_t *)text; }

/* Whether the area holds this line, of this length. */
static int is_line(size_t length, const char *expected) {
    return length == strlen(expected) && memcmp(line, expected, length) == 0;
}

/* Fills every area with a byte that none of them is to hold. */
static void paint(void) {
    memset(marks, 0xa5, sizeof marks);
    memset(path, 0xa5, sizeof path);
    memset(scratch, 0xa5, sizeof scratch);
    memset(line, 0xa5, sizeof line);
}

/* Whether all bytes of an area, from one on, have this value. */
static int all_are(const void *area, size_t from, size_t size, uint8_t value) {
    const uint8_t *at = area;
    for (size_t i = from; i < size; i++)
        if (at[i] != value) return 0;
    return 1;
}

static int areas_painted(void) {
    return all_are(marks, 0, sizeof marks, 0xa5) && all_are(path, 0, sizeof path, 0xa5) && all_are(scratch, 0, sizeof scratch, 0xa5);
}

static size_t verdict(const char *new_text, const char *old_text, size_t line_length, size_t *area) {
    paint();
    return dzaghvori_verdict(bytes(new_text), strlen(new_text), bytes(old_text), strlen(old_text), marks, sizeof marks, path,
                             sizeof path / sizeof *path, scratch, sizeof scratch / sizeof *scratch, line, line_length, area);
}

static void check_verdict(void) {
    size_t area = 9;
    check(is_line(verdict(R, R, sizeof line, &area), "yes 5\n") && area == 0, "R may replace itself");
    check(all_are(line, 6, sizeof line, 0xa5), "what is beyond the line stays");
    check(marks[0] == 1 && marks[6] == 1 && marks[1] == 0, "the pairs reached are marked, and no other");
    check(all_are(path, 0, sizeof path, 0xa5) && all_are(scratch, 0, sizeof scratch, 0), "the path stays, and scratch is 0");
    check(is_line(verdict(N, R, sizeof line, &area), "no 23 1 2 2 0 0 4\n") && area == 0, "N may not replace R");
    check(path[0] == 0 && path[1] == 4 && all_are(path, 4, sizeof path, 0xa5), "the path holds the steps");
    check(all_are(marks, 0, sizeof marks, 0) && all_are(scratch, 0, sizeof scratch, 0), "marks and scratch are 0");
    check(is_line(verdict("A = A .", R, sizeof line, &area), "refused 9 1 0\n") && area == 0, "a first text is refused");
    check(areas_painted(), "and marks, path and scratch stay");
    check(is_line(verdict(R, "", sizeof line, &area), "refused 2 2 0\n") && area == 0, "a second text is refused");
}

static void check_short(void) {
    size_t area = 9;
    check(verdict(N, R, sizeof line - 1, &area) == 0 && area == 4, "a line that is too short is refused");
    check(areas_painted() && all_are(line, 0, sizeof line, 0xa5), "and nothing is written");
    check(dzaghvori_verdict(bytes(N), strlen(N), bytes(R), strlen(R), marks, sizeof marks - 1, path, 0, scratch, 0, line, 0, &area) == 0 &&
              area == 1,
          "of several areas that are too short the first is named");
    check(areas_painted() && all_are(line, 0, sizeof line, 0xa5), "and nothing is written then");
}

static void check_others(void) {
    size_t area = 9;
    size_t length =
        dzaghvori_compatible(bytes(U), strlen(U), bytes(R), strlen(R), marks, sizeof marks, path, sizeof path / sizeof *path, scratch,
                             sizeof scratch / sizeof *scratch, line, sizeof line, &area);
    check(is_line(length, "yes 5\n") && area == 0, "U is compatible with R");
    length = dzaghvori_verdict_own(bytes(N), strlen(N), bytes(R), strlen(R), line, sizeof line, &area);
    check(is_line(length, "no 23 1 2 2 0 0 4\n") && area == 0, "a verdict in areas of its own");
    length = dzaghvori_compatible_own(bytes(U), strlen(U), bytes(R), strlen(R), line, sizeof line, &area);
    check(is_line(length, "yes 5\n") && area == 0, "compatible in areas of its own");
    paint();
    length = dzaghvori_verdict_own(bytes(R), strlen(R), bytes(R), strlen(R), line, sizeof line - 1, &area);
    check(length == 0 && area == 4, "a line that is too short beside areas of its own");
    check(all_are(line, 0, sizeof line, 0xa5), "and it stays");
}

static int run_checks(void) {
    check_verdict();
    check_short();
    check_others();
    printf("harness.c: %d checks, %d failures\n", checks, failures);
    return failures == 0 ? 0 : 2;
}

static int fail(const char *what) {
    fprintf(stderr, "harness: %s\n", what);
    return 2;
}

static int fail_to_read(const char *name) {
    fprintf(stderr, "harness: cannot read %s: %s\n", name, strerror(errno));
    return 2;
}

/* One byte more than a text may have: what comes behind them does not count, as such a text is refused. */
enum { TEXT = DZAGHVORI_TEXT_BYTES + 1 };

/* Reads the bytes of a file that count, and returns 0 where that fails. */
static int read_text(const char *name, uint8_t *text, size_t *length) {
    FILE *file = fopen(name, "rb");
    if (file == NULL) return 0;
    *length = fread(text, 1, TEXT, file);
    int whole = !ferror(file);
    fclose(file);
    return whole;
}

static int ask(int compatible, const char *new_name, const char *old_name) {
    static uint8_t new_text[TEXT], old_text[TEXT], answer[DZAGHVORI_LINE(DZAGHVORI_TEXT_NODES, DZAGHVORI_DUAL_NODES)];
    size_t new_length, old_length, area;
    if (!read_text(new_name, new_text, &new_length)) return fail_to_read(new_name);
    if (!read_text(old_name, old_text, &old_length)) return fail_to_read(old_name);
    size_t length = (compatible ? dzaghvori_compatible_own : dzaghvori_verdict_own)(new_text, new_length, old_text, old_length, answer,
                                                                                   sizeof answer, &area);
    if (length == 0) return fail("the line is too long");
    if (fwrite(answer, 1, length, stdout) != length || fflush(stdout) != 0) return fail("cannot write to standard output");
    return answer[0] == 'y' ? 0 : answer[0] == 'n' ? 1 : 2;
}

int main(int count, char **words) {
    int compatible = count > 1 && strcmp(words[1], "--compatible") == 0;
    if (count == 2 && strcmp(words[1], "--check") == 0) return run_checks();
    if (count != 3 + compatible) return fail("usage: harness [--compatible] NEW OLD, or --check");
    return ask(compatible, words[1 + compatible], words[2 + compatible]);
}
