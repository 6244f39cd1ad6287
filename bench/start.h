/* The start of a run, for the two programs that pic is compared with: reads what bench/decks.py writes, and loads particles.
   Unproved, and for comparison alone. */
#ifndef START_H
#define START_H

#include <stdint.h>
#include <stdio.h>
#include <stdlib.h>
#include <string.h>

typedef __int128 wide;

enum { SIDE = 4096, MOST_SPECIES = 16 };

/* the factor n / 2^k; half is what has to be added before the shift to round, a half going up */
struct multiplier { int64_t n; int k; int64_t half; };

struct kind { int64_t charge, mass; struct multiplier kick, turn; };

/* x in sub-cells, v in 1/4096 sub-cell a step */
struct particle { uint32_t x[3]; int32_t v[3]; uint32_t species; };

/* fields in the order axis, z, y, x, with x fastest */
struct start {
    int cells[3], steps, every;
    struct multiplier e_to_b, b_to_e, e_force, b_force;
    struct kind kinds[MOST_SPECIES];
    wide *e, *b;
    struct particle *particles;
    size_t count;
};

/* the generator PCG32 */
struct draw { uint64_t state, step; };

static uint32_t next_word(struct draw *draw)
{
    uint64_t old = draw->state;
    draw->state = old * 6364136223846793005u + draw->step;
    uint32_t mixed = (uint32_t)((old >> 18 ^ old) >> 27), turn = (uint32_t)(old >> 59);
    return mixed >> turn | mixed << (-turn & 31);
}

static struct draw draw_of(uint64_t seed, uint64_t stream)
{
    struct draw draw = { seed + (2 * stream + 1), 2 * stream + 1 };
    next_word(&draw);
    return draw;
}

static int64_t number(void)
{
    long long value;
    if (scanf("%lld", &value) != 1) { fputs("no number where one is due\n", stderr); exit(2); }
    return value;
}

static void numbers(int64_t *to, int count)
{
    for (int i = 0; i < count; i++) to[i] = number();
}

static struct multiplier multiplier(void)
{
    struct multiplier m = { number(), 0, 0 };
    m.k = (int)number();
    m.half = m.k ? 1ll << (m.k - 1) : 0;
    return m;
}

static void *room(size_t count, size_t size)
{
    void *all = calloc(count ? count : 1, size);
    if (!all) { fputs("no memory\n", stderr); exit(6); }
    return all;
}

static struct particle *more_particles(struct start *start, size_t count, uint32_t species)
{
    start->particles = realloc(start->particles, (start->count + count + 1) * sizeof *start->particles);
    if (!start->particles) { fputs("no memory\n", stderr); exit(6); }
    struct particle *first = start->particles + start->count;
    for (size_t i = 0; i < count; i++) first[i].species = species;
    start->count += count;
    return first;
}

/* nearly Gaussian: a drift and a spread times a sum of twelve words less its mean */
static void draw_velocity(struct draw *draw, const int64_t drift[3], const int64_t spread[3], int32_t v[3])
{
    for (int a = 0; a < 3; a++) {
        int64_t sum = -6 * (int64_t)UINT32_MAX;
        for (int i = 0; i < 12; i++) sum += next_word(draw);
        v[a] = (int32_t)(drift[a] + ((spread[a] * sum + (1ll << 31)) >> 32));
    }
}

/* rows of x, y, z, vx, vy, vz */
static void load_points(struct start *start, uint32_t species)
{
    size_t count = (size_t)number();
    struct particle *p = more_particles(start, count, species);
    for (size_t i = 0; i < count; i++) {
        for (int a = 0; a < 3; a++) p[i].x[a] = (uint32_t)number();
        for (int a = 0; a < 3; a++) p[i].v[a] = (int32_t)number();
    }
}

/* count, seed, stream, drift, spread */
static void load_random(struct start *start, uint32_t species)
{
    int64_t of[9];
    numbers(of, 9);
    struct particle *p = more_particles(start, (size_t)of[0], species);
    struct draw draw = draw_of((uint64_t)of[1], (uint64_t)of[2]);
    for (int64_t i = 0; i < of[0]; i++) {
        for (int a = 0; a < 3; a++)
            p[i].x[a] = (uint32_t)((uint64_t)next_word(&draw) * (uint64_t)(start->cells[a] * SIDE) >> 32);
        draw_velocity(&draw, of + 3, of + 6, p[i].v);
    }
}

/* the number of an earlier species, seed, stream, drift, spread: stands where that species stands */
static void load_pair(struct start *start, uint32_t species, const size_t *first)
{
    int64_t of[9];
    numbers(of, 9);
    size_t from = first[of[0]], count = first[of[0] + 1] - from;
    struct particle *p = more_particles(start, count, species);
    struct draw draw = draw_of((uint64_t)of[1], (uint64_t)of[2]);
    for (size_t i = 0; i < count; i++) {
        memcpy(p[i].x, start->particles[from + i].x, sizeof p[i].x);
        draw_velocity(&draw, of + 3, of + 6, p[i].v);
    }
}

static void load_species(struct start *start)
{
    size_t first[MOST_SPECIES + 1] = { 0 };
    int count = (int)number();
    for (int i = 0; i < count; i++) {
        struct kind *kind = &start->kinds[i];
        kind->charge = number();
        kind->mass = number();
        kind->kick = multiplier();
        kind->turn = multiplier();
        char from[16];
        if (scanf("%15s", from) != 1) { fputs("a species without particles\n", stderr); exit(2); }
        if (!strcmp(from, "points")) load_points(start, (uint32_t)i);
        else if (!strcmp(from, "random")) load_random(start, (uint32_t)i);
        else load_pair(start, (uint32_t)i, first);
        first[i + 1] = start->count;
    }
}

/* the uniform part, and rows of axis, i, j, k, value that are added */
static wide *load_field(const int cells[3])
{
    size_t each = (size_t)cells[0] * (size_t)cells[1] * (size_t)cells[2];
    wide *field = room(3 * each, sizeof *field);
    for (size_t a = 0; a < 3; a++) {
        int64_t value = number();
        for (size_t i = 0; i < each; i++) field[a * each + i] = value;
    }
    for (int64_t rows = number(); rows > 0; rows--) {
        int64_t row[5];
        numbers(row, 5);
        field[((row[0] * cells[2] + row[3]) * cells[1] + row[2]) * cells[0] + row[1]] += row[4];
    }
    return field;
}

/* by boxes of 8^3 cells, z slowest */
static int by_box(const void *left, const void *right)
{
    const struct particle *p = left, *q = right;
    for (int a = 2; a >= 0; a--) {
        uint32_t one = p->x[a] / (8 * SIDE), other = q->x[a] / (8 * SIDE);
        if (one != other) return one < other ? -1 : 1;
    }
    return 0;
}

/* The particles lie as they were made or, where the program's one word is `sorted`, near those that stand near them. A list that
   was sorted gives the same numbers, but a particle that halts is then told by its place in that list. */
static struct start read_start(int words, char **word)
{
    struct start start = { 0 };
    for (int a = 0; a < 3; a++) start.cells[a] = (int)number();
    start.steps = (int)number();
    start.every = (int)number();
    start.e_to_b = multiplier();
    start.b_to_e = multiplier();
    start.e_force = multiplier();
    start.b_force = multiplier();
    start.e = load_field(start.cells);
    start.b = load_field(start.cells);
    load_species(&start);
    if (words == 2 && !strcmp(word[1], "sorted")) qsort(start.particles, start.count, sizeof *start.particles, by_box);
    return start;
}

#endif
