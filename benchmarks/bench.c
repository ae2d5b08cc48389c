// Times the library beside the same loops in C, on the same inputs, after a test that both give the same words and messages.
#define _POSIX_C_SOURCE 200809L
#include "code.h"
#include "dense.h"

#include <stdio.h>
#include <stdlib.h>
#include <string.h>
#include <time.h>

enum { ROUNDS_LEAST = 20, ROUNDS_MOST = 2000, PATIENCE_NS = 1500000000 };

static const uint16_t polynomials[] = { 7, 11, 19, 37, 67, 137, 285, 529 };

static struct code code;
static struct field field;
static struct dense dense;
static uint16_t blocks[BLOCKS], blocks_c[BLOCKS], message[BLOCKS], word[BLOCKS], word_c[BLOCKS], word_dense[BLOCKS], work[BLOCKS];
static uint16_t recovered[BLOCKS], recovered_c[BLOCKS];
static uint32_t state;
static int failed;

static uint32_t next(uint32_t below)
{
    state ^= state << 13;
    state ^= state >> 17;
    state ^= state << 5;
    return state % below;
}

static void stop(const char *why)
{
    fprintf(stderr, "benchmarks: %s\n", why);
    exit(1);
}

static void expect(int holds, const char *what)
{
    if (!holds) {
        printf("DIFFERS: %s\n", what);
        failed = 1;
    }
}

static void make_field(unsigned degree)
{
    field.degree = degree;
    field.order = 1u << degree;
    field.polynomial = polynomials[degree - 2];
    unsigned p = 1;
    for (unsigned k = 0; k < 2 * (field.order - 1); k++) {
        field.powers[k] = p;
        if (k < field.order - 1)
            field.logarithms[p] = k;
        p <<= 1;
        if (p >= field.order)
            p ^= field.polynomial;
    }
}

// The array that a script draws: its lines 'new SIZE ROWS COLUMNS' and 'place ROW COLUMN SHIFT:COEFFICIENT ..'.
static void read_drawing(const char *path)
{
    FILE *file = fopen(path, "r");
    if (!file)
        stop("no drawing");
    char *line = NULL;
    size_t room = 0;
    memset(&code, 0, sizeof code);
    while (getline(&line, &room, file) > 0) {
        size_t row, column;
        int used;
        if (sscanf(line, "new %zu %zu %zu", &code.size, &code.rows, &code.columns) == 3)
            continue;
        if (sscanf(line, "place %zu %zu%n", &row, &column, &used) != 2)
            continue;
        if (row >= code.rows || column >= code.columns)
            stop("a place outside of the drawing");
        struct cell_row *cell = &code.cells[row * code.columns + column];
        const char *rest = line + used;
        unsigned shift, coefficient;
        while (cell->count < 4 && sscanf(rest, " %u:%u%n", &shift, &coefficient, &used) == 2) {
            cell->terms[cell->count++] = (struct term){ shift, coefficient };
            rest += used;
        }
    }
    free(line);
    fclose(file);
}

static void draw_at_random(size_t size, size_t rows, size_t columns)
{
    memset(&code, 0, sizeof code);
    code.size = size;
    code.rows = rows;
    code.columns = columns;
    for (size_t k = 0; k < rows * columns; k++) {
        struct cell_row *cell = &code.cells[k];
        size_t count = next(5);
        for (size_t shift = next(size / 4); cell->count < count && shift < size; shift += 1 + next(size / 4))
            cell->terms[cell->count++] = (struct term){ shift, 1 + next(field.order - 1) };
    }
}

static double nanoseconds(void)
{
    struct timespec t;
    clock_gettime(CLOCK_MONOTONIC, &t);
    return t.tv_sec * 1e9 + t.tv_nsec;
}

// The ways to do one operation: ours, C at both levels, each with two products, and the dense encoder.
enum { OURS, C2, C2_SECOND, C3, C3_SECOND, DENSE, WAYS };
enum operation { BUILD, ENCODE, CHECK, RECOVER };
static const char *const names[] = { "build all blocks", "encode", "check", "recover" };

static uint8_t number;          // the field as the library names it
static const struct loops *loops[WAYS];  // of the ways in C
static size_t length, dimension;

static uint8_t recover_ours(const uint16_t *symbols)
{
    return timing_recover(number, code.size, code.rows, code.columns, code.cells, CELLS, blocks, BLOCKS, symbols, length, recovered, BLOCKS, work,
        BLOCKS);
}

static void run(enum operation operation, int way)
{
    const struct loops *c = loops[way];
    if (way == DENSE) {
        dense_encode(&dense, message, word_dense);
    } else if (operation == BUILD) {
        if (way != OURS)
            c->build(&field, &code, blocks_c);
        else if (timing_build(number, code.size, code.rows, code.columns, code.cells, CELLS, blocks, BLOCKS) != 0)
            stop("build is refused");
    } else if (operation == ENCODE) {
        if (way != OURS)
            c->encode(&field, &code, blocks_c, message, word_c, work);
        else if (timing_encode(number, code.size, code.rows, code.columns, blocks, BLOCKS, message, dimension, word, BLOCKS, work, BLOCKS) != 0)
            stop("encode is refused");
    } else if (operation == RECOVER) {
        if (way != OURS ? !c->recover(&field, &code, blocks_c, word_c, recovered_c, work) : recover_ours(word) != 0)
            stop("no message is recovered from a word of the code");
    } else {
        if (way != OURS ? !c->check(&field, &code, word_c)
                        : timing_check(number, code.size, code.rows, code.columns, code.cells, CELLS, word, length) != 0)
            stop("a word of the code fails a check");
    }
}

static int is_done(enum operation operation, int way)
{
    return way != DENSE || operation == ENCODE;
}

static double least(double a, double b)
{
    return a < b ? a : b;
}

static void print_time(double ns)
{
    if (ns < 1e18)
        printf(" %.1f |", ns / 1e3);
    else
        printf(" |");
}

// The best of many rounds; the ways take turns, so that a busy machine troubles all of them alike. A ratio is to the faster product in C.
static void time_operation(enum operation operation, const char *title, const char *field_name)
{
    double best[WAYS], spent = 0;
    for (int way = 0; way < WAYS; way++)
        best[way] = 1e18;
    for (int rounds = 0; rounds < ROUNDS_LEAST || (rounds < ROUNDS_MOST && spent < PATIENCE_NS); rounds++)
        for (int way = 0; way < WAYS; way++) {
            if (!is_done(operation, way))
                continue;
            double start = nanoseconds();
            run(operation, way);
            double taken = nanoseconds() - start;
            spent += taken;
            best[way] = least(best[way], taken);
        }
    printf("| %s | %s | %s |", names[operation], title, field_name);
    print_time(best[OURS]);
    print_time(best[C2]);
    print_time(best[C2_SECOND]);
    printf(" %.2f |", best[OURS] / least(best[C2], best[C2_SECOND]));
    print_time(best[C3]);
    print_time(best[C3_SECOND]);
    printf(" %.2f |", best[OURS] / least(best[C3], best[C3_SECOND]));
    print_time(best[DENSE]);
    printf("\n");
    fflush(stdout);
}

static size_t count_dimension(void)
{
    size_t rank = 0, places = code.rows * code.columns;
    for (size_t t = 0; t < code.size; t++)
        for (size_t i = 0; i < code.rows; i++)
            for (size_t j = 0; j < code.columns; j++)
                if (blocks_c[t * places + i * code.columns + j] != 0) {
                    rank++;
                    break;
                }
    return length - rank;
}

// What every way says of a word: a word that fails is refused with 11, by recovery too.
static int passes(const uint16_t *symbols)
{
    uint8_t answer = timing_check(number, code.size, code.rows, code.columns, code.cells, CELLS, symbols, length);
    expect(answer == 0 || answer == 11, "the refusal of a word that fails");
    expect(answer == recover_ours(symbols), "the verdict on a word that is to be recovered from");
    for (int way = C2; way <= C3_SECOND; way++) {
        expect((answer == 0) == loops[way]->check(&field, &code, symbols), "the verdict on a word");
        expect((answer == 0) == loops[way]->recover(&field, &code, blocks_c, symbols, recovered_c, work), "the verdict on a word to recover from in C");
    }
    return answer == 0;
}

static uint32_t checksum(const uint16_t *symbols, size_t count)
{
    uint32_t sum = 2166136261u;
    for (size_t i = 0; i < count; i++)
        sum = (sum ^ symbols[i]) * 16777619u;
    return sum;
}

// Builds, encodes, checks and recovers by every way, and compares.
static void compare(void)
{
    size_t used = code.rows * code.columns * code.size * sizeof *blocks;
    length = code.columns * code.size;
    for (int way = C2; way <= C3_SECOND; way++) {
        run(BUILD, OURS);
        run(BUILD, way);
        expect(memcmp(blocks, blocks_c, used) == 0, "the echelon forms");
    }
    dimension = count_dimension();
    expect(dimension == dense.dimension, "the dimension by the dense matrix");
    for (size_t i = 0; i < dimension; i++)
        message[i] = next(field.order);
    for (int way = C2; way <= C3_SECOND; way++) {
        run(ENCODE, OURS);
        run(ENCODE, way);
        expect(memcmp(word, word_c, length * sizeof *word) == 0, "the words");
    }
    run(ENCODE, DENSE);
    expect(passes(word), "a word that was encoded passes");
    expect(passes(word_dense), "a word of the dense matrix passes");
    // a word with one symbol changed: what matters is that both sides say the same of it
    size_t at = next(length);
    word[at] ^= 1;
    passes(word);
    word[at] ^= 1;
    for (int way = C2; way <= C3_SECOND; way++) {
        memset(recovered, 0, sizeof recovered);
        memset(recovered_c, 0, sizeof recovered_c);
        run(RECOVER, OURS);
        run(RECOVER, way);
        expect(memcmp(recovered, message, dimension * sizeof *message) == 0, "the message that is recovered");
        expect(memcmp(recovered_c, message, dimension * sizeof *message) == 0, "the message that is recovered in C");
    }
}

static void time_code(const char *title, const char *field_name, uint8_t named, int timed)
{
    number = named;
    loops[C2] = named == 0 ? &table_loops_2 : &shift_loops_2;
    loops[C3] = named == 0 ? &table_loops_3 : &shift_loops_3;
    loops[C2_SECOND] = named == 0 ? &turn_loops_2 : &bits_loops_2;
    loops[C3_SECOND] = named == 0 ? &turn_loops_3 : &bits_loops_3;
    state = 88172645;
    compare();
    if (!timed) {
        printf("%s, %s: dimension %zu of %zu, checksum of the word %08x (ours) %08x (C), of the message recovered from it %08x (ours) %08x (C)\n", title,
            field_name, dimension, length, checksum(word, length), checksum(word_c, length), checksum(recovered, dimension),
            checksum(recovered_c, dimension));
        return;
    }
    for (int operation = BUILD; operation <= RECOVER; operation++)
        time_operation(operation, title, field_name);
}

static void head(void)
{
    printf("\n| operation | code | field | ours | C -O2 | C -O2, second product | ours : C -O2 | C -O3 | C -O3, second product | ours : C -O3 | "
           "dense generator matrix, C -O2 |\n");
    printf("|---|---|---|---|---|---|---|---|---|---|---|\n");
}

int main(int argc, char **argv)
{
    if (argc != 2)
        stop("usage: bench DRAWING");
    for (int timed = 0; timed < 2 && !failed; timed++) {
        if (timed)
            head();
        make_field(9);
        read_drawing(argv[1]);
        if (!dense_make(&dense, &field, &code))
            stop("no memory");
        const char *title = "CCSDS, 2 x 16, size 511";
        time_code(title, "table, degree 9", 0, timed);
        time_code(title, "shift, degree 9", 9, timed);
        dense_free(&dense);
        make_field(6);
        state = 2463534242u;
        draw_at_random(63, 8, 32);
        if (!dense_make(&dense, &field, &code))
            stop("no memory");
        time_code("random, 8 x 32, size 63", "shift, degree 6", 6, timed);
        dense_free(&dense);
    }
    return failed;
}
