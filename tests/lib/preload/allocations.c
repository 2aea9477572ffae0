// Refuses allocations of the program that it is loaded into by LD_PRELOAD. The environment says which:
//   REFUSED=N         the allocation of number N, counted from 1
//   ODDS=K AFTER=N    of the allocations after the first N, each with the probability 1/K
//   CHANCE=SEED       which of these; the same seed refuses the same ones
// It also refuses every allocation between a block of STARVE bytes and a block of FEAST bytes.
// At the program's end it writes three numbers to the file COUNT: how many allocations the program asked for, how many
// blocks of STARVE bytes it asked for, and how many allocations it asked for between STARVE and FEAST.
#include <stdio.h>
#include <stdlib.h>

#define STARVE 777777
#define FEAST 888888

void *__libc_malloc(size_t size);
void *__libc_calloc(size_t count, size_t size);
void *__libc_realloc(void *block, size_t size);

static long asked, starved, hungry, refused = -1;
static unsigned long odds, after, chance;
static int is_starving;

static unsigned long number_of(const char *name) {
    const char *number = getenv(name);
    return number ? strtoul(number, NULL, 10) : 0;
}

// Returns the next random number: Vigna's splitmix64.
static unsigned long next(void) {
    unsigned long x = chance += 0x9E3779B97F4A7C15;
    x = (x ^ (x >> 30)) * 0xBF58476D1CE4E5B9;
    x = (x ^ (x >> 27)) * 0x94D049BB133111EB;
    return x ^ (x >> 31);
}

static int is_refused(size_t size) {
    if (refused < 0) {
        refused = (long)number_of("REFUSED");
        odds = number_of("ODDS");
        after = number_of("AFTER");
        chance = number_of("CHANCE");
    }
    if (size == STARVE) {
        starved++;
        is_starving = 1;
        return 0;
    }
    if (size == FEAST) is_starving = 0;
    hungry += is_starving;
    return ++asked == refused || is_starving || (odds && (unsigned long)asked > after && next() % odds == 0);
}

void *malloc(size_t size) { return is_refused(size) ? NULL : __libc_malloc(size); }
void *calloc(size_t count, size_t size) { return __libc_calloc(count, size); }
void *realloc(void *block, size_t size) { return is_refused(size) ? NULL : __libc_realloc(block, size); }

__attribute__((destructor)) static void write_counts(void) {
    long made = asked, between = hungry;
    const char *name = getenv("COUNT");
    /* From here on no allocation is refused: fopen needs one. */
    is_starving = 0;
    refused = 0;
    odds = 0;
    FILE *file = name ? fopen(name, "w") : NULL;
    if (file) {
        fprintf(file, "%ld %ld %ld\n", made, starved, between);
        fclose(file);
    }
}
