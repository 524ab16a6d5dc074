/* Times the library's calls on the cases of a file that bench/run.py writes: best and median of the runs in nanoseconds, and a sum over the words
 * written, by which run.py sees that the Rust did the same work. A line for each case: `best median sum`; `-` where the call isn't there.
 * Outputs are lent once for each case and not cleared between its runs; form_unsorted's updates are put back as they were, outside the clock. */
#include "rafterloop.h"
#include <inttypes.h>
#include <stdio.h>
#include <stdlib.h>
#include <string.h>
#include <time.h>

enum { CHECK, FORM, FORM_UNSORTED, FILTER, SPLIT, EXTRACT, SUFFIX, MELD, WALK, SURVEY, MERGE, PLAIN, RUNS = 200 };

static uint64_t *words;
static size_t at;

struct slice {
    uint64_t *w;
    size_t n;
};

static struct slice take(void)
{
    struct slice s = {words + at + 1, (size_t)words[at]};
    at += 1 + s.n;
    return s;
}

static uint64_t *lend(size_t n)
{
    uint64_t *p = (uint64_t *)calloc(n ? n : 1, sizeof(uint64_t));
    if (!p)
        exit(3);
    return p;
}

static uint64_t now(void)
{
    struct timespec t;
    clock_gettime(CLOCK_MONOTONIC, &t);
    return (uint64_t)t.tv_sec * 1000000000u + (uint64_t)t.tv_nsec;
}

static uint64_t sum(uint64_t h, const uint64_t *w, size_t n)
{
    for (size_t i = 0; i < n; i++)
        h = (h ^ w[i]) * 0x100000001b3u;
    return h;
}

static uint64_t sum_chunk(uint64_t h, const uint64_t *w) { return sum(h, w, 4 + 2 * w[0] + 2 * w[1] + 2 * w[2] + w[3]); }

/* A whole walk: every record goes into a sum. */
static uint64_t walk(struct slice a, uint64_t *h)
{
    uint64_t w[RL_WALKER_WORDS], r[RL_RECORD_WORDS], number = rl_walk_start(a.w, a.n, w, RL_WALKER_WORDS);
    *h = 0;
    while (!number && !(number = rl_walk_step(a.w, a.n, w, RL_WALKER_WORDS, r, RL_RECORD_WORDS)))
        *h = sum(*h, r, RL_RECORD_WORDS);
    return number == RL_DONE ? 0 : number;
}

/* A case: its slices, and what it is lent. */
struct work {
    uint64_t call;
    struct slice a, b;
    uint64_t *x, *y, *z, upper[RL_FRONTIER_WORDS];
    size_t xn, yn, zn;
    uint64_t walked;
};

static uint64_t run(struct work *k)
{
    switch (k->call) {
    case CHECK: return rl_check(k->a.w, k->a.n, k->x, k->xn) + (k->b.n ? rl_check(k->b.w, k->b.n, k->x, k->xn) : 0);
    case FORM: return rl_form(k->a.w, k->a.n, k->x, k->xn);
    case FORM_UNSORTED: return rl_form_unsorted(k->y, k->a.n, k->x, k->xn);
    case FILTER: return rl_filter_zero(k->a.w, k->a.n, k->x, k->xn);
    case SPLIT: return rl_split_at(k->a.w, k->a.n, k->b.w[0], k->x, k->xn, k->y, k->yn);
    case EXTRACT: return rl_extract(k->a.w, k->a.n, k->upper, RL_FRONTIER_WORDS, k->z, k->zn, k->x, k->xn, k->y, k->yn);
    case SUFFIX: return rl_suffix_chunk(k->b.w[0], k->b.w[1], k->b.w[2], k->a.w, k->a.n, k->x, k->xn);
    case MELD: return rl_meld(k->a.w, k->a.n, k->b.w, k->b.n, k->x, k->xn);
    case WALK: return walk(k->a, &k->walked);
    case SURVEY: return rl_survey(k->a.w, k->a.n, k->b.w, k->b.n, k->x, k->xn, k->z, k->zn);
    case MERGE: return rl_merge_pair(k->a.w, k->a.n, k->b.w, k->b.n, k->y, k->yn, k->x, k->xn, k->z, k->zn);
    default: return 99;
    }
}

static void room(struct work *k)
{
    size_t n = k->a.n, m = k->b.n;
    switch (k->call) {
    case FORM: case FORM_UNSORTED: k->xn = 4 + 7 * (n / 4); k->yn = n; break;
    case MELD: case MERGE: k->xn = n + m - 4; break;
    case SURVEY: k->xn = 3 * (k->a.w[0] + k->b.w[0]); break;
    default: k->xn = n; k->yn = n;
    }
    if (k->call == MERGE)
        k->yn = 3 * (k->a.w[0] + k->a.w[1] + k->a.w[2] + k->b.w[0] + k->b.w[1] + k->b.w[2]);
    k->zn = RL_EXTRACT_WORDS;
    k->x = lend(k->xn);
    k->y = lend(k->yn);
    k->z = lend(k->zn);
    if (k->call == EXTRACT) {
        memset(k->upper, 0, sizeof k->upper);
        k->upper[0] = m;
        memcpy(k->upper + 1, k->b.w, m * sizeof(uint64_t));
    }
}

static uint64_t written(const struct work *k)
{
    switch (k->call) {
    case CHECK: return 0;
    case SPLIT: case EXTRACT: return sum_chunk(sum_chunk(0, k->x), k->y);
    case WALK: return k->walked;
    case SURVEY: return sum(0, k->x, 3 * k->z[0]);
    default: return sum_chunk(0, k->x);
    }
}

static int by_number(const void *a, const void *b)
{
    uint64_t x = *(const uint64_t *)a, y = *(const uint64_t *)b;
    return x < y ? -1 : x > y;
}

/* The call a few times and nothing more, for counting its instructions. */
static void only_run(struct work *k, int runs)
{
    room(k);
    if (k->call == FORM_UNSORTED)
        memcpy(k->y, k->a.w, k->a.n * sizeof(uint64_t));
    while (runs-- > 0)
        if (run(k))
            exit(4);
}

static void time_case(struct work *k, uint64_t most)
{
    uint64_t ns[RUNS], spent = 0;
    int runs = 0;
    room(k);
    while (runs < RUNS && (runs < 3 || spent < most)) {
        if (k->call == FORM_UNSORTED)
            memcpy(k->y, k->a.w, k->a.n * sizeof(uint64_t));
        uint64_t start = now(), number = run(k);
        ns[runs] = now() - start;
        spent += ns[runs++];
        if (number) {
            printf("-\n");
            return;
        }
    }
    qsort(ns, (size_t)runs, sizeof ns[0], by_number);
    printf("%" PRIu64 " %" PRIu64 " %" PRIu64 "\n", ns[0], ns[runs / 2], written(k));
}

int main(int argc, char **argv)
{
    FILE *f = argc > 2 ? fopen(argv[1], "rb") : NULL;
    if (!f || fseek(f, 0, SEEK_END))
        return fprintf(stderr, "usage: ours CASES NANOSECONDS [RUNS]\n"), 2;
    size_t n = (size_t)ftell(f) / sizeof(uint64_t);
    rewind(f);
    words = lend(n);
    if (fread(words, sizeof(uint64_t), n, f) != n)
        return 3;
    while (at < n) {
        struct work k = {.call = words[at++]};
        k.a = take();
        k.b = take();
        if (argc > 3)
            only_run(&k, atoi(argv[3]));
        else
            time_case(&k, strtoull(argv[2], NULL, 10));
        free(k.x);
        free(k.y);
        free(k.z);
    }
    free(words);
    fclose(f);
    return 0;
}
