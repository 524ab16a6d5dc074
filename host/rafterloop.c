/* Folds and checks fault logs. A line of a log is `truck fault ignition tick change`; `#` starts a comment; a carriage return may stand before
 * the newline, and a byte order mark before the first line.
 *   rafterloop fold LOG..     what all the logs together say, in order, with what cancelled left out
 *   rafterloop check LOG..    whether each log can be read and forms a chunk
 * Exit status: 0 where all went well, 1 where a log is bad or refused, 2 for a wrong command. */
#include "rafterloop.h"
#include <errno.h>
#include <inttypes.h>
#include <stdio.h>
#include <stdlib.h>
#include <string.h>

/* Updates, four words each, in a buffer that grows with the input. */
struct updates {
    uint64_t *words;
    size_t len;
    size_t room;
};

/* A chunk at the front of its words, or words lent for one. */
struct chunk {
    uint64_t *words;
    size_t len;
};

static const char *refusal(uint64_t number)
{
    switch (number) {
    case 1: return "the updates are not four words each";
    case 2: return "more than 1048576 updates, or times of two logs";
    case 3: return "the updates are not in order";
    case 4: return "a change is outside -2^40 to 2^40";
    case 5: return "the words are not a chunk";
    case 6: return "the chunk is not settled";
    case 7: return "the chunk is empty";
    case 11: return "the second chunk does not follow the first";
    case 12: return "the scratch is too short";
    case 13: return "an output is too short";
    case 14: return "a sum of two changes is outside 64 bits";
    default: return "an unknown refusal";
    }
}

static void *words_or_die(void *old, size_t count)
{
    if (count > SIZE_MAX / sizeof(uint64_t)) {
        fprintf(stderr, "rafterloop: too many updates for this machine\n");
        exit(1);
    }
    void *p = realloc(old, (count ? count : 1) * sizeof(uint64_t));
    if (!p) {
        fprintf(stderr, "rafterloop: no memory for %zu words\n", count);
        exit(1);
    }
    return p;
}

static void add_word(struct updates *u, uint64_t word)
{
    if (u->len == u->room) {
        u->room = u->room ? 2 * u->room : 1024;
        u->words = words_or_die(u->words, u->room);
    }
    u->words[u->len++] = word;
}

/* The next field of a line: a whole number of at most `most`, with a sign where `is_signed`. Returns what is wrong, or NULL. */
static const char *field(char **at, uint64_t most, int is_signed, uint64_t *out)
{
    char *p = *at + strspn(*at, " \t");
    if (!*p)
        return "is missing";
    int minus = is_signed && *p == '-';
    if (is_signed && (*p == '-' || *p == '+'))
        p++;
    if (*p < '0' || *p > '9')
        return "is not a whole number";
    errno = 0;
    char *end;
    unsigned long long n = strtoull(p, &end, 10);
    if (*end && !strchr(" \t", *end))
        return "is not a whole number";
    if (errno || n > most)
        return "is too large";
    *out = minus ? 0 - (uint64_t)n : (uint64_t)n;
    *at = end;
    return NULL;
}

static int bad(const char *name, unsigned long line, const char *what, const char *why)
{
    fprintf(stderr, "%s:%lu: %s %s\n", name, line, what, why);
    return 1;
}

/* One line, without its end, onto the updates. Returns 0, or 1 with a message printed. */
static int read_line(const char *name, unsigned long number, char *text, struct updates *u)
{
    static const char *const names[5] = {"truck", "fault", "ignition", "tick", "change"};
    static const uint64_t most[5] = {UINT64_MAX, UINT64_MAX, UINT32_MAX, UINT32_MAX, INT64_MAX};
    uint64_t f[5];
    if (strchr(text, '\r'))
        return bad(name, number, "line", "has a carriage return inside: a line ends with a newline, or with a carriage return and a newline");
    char *comment = strchr(text, '#');
    if (comment)
        *comment = 0;
    char *at = text;
    if (!at[strspn(at, " \t")])
        return 0;
    for (int i = 0; i < 5; i++) {
        const char *why = field(&at, most[i], i == 4, &f[i]);
        if (why)
            return bad(name, number, names[i], why);
    }
    if (at[strspn(at, " \t")])
        return bad(name, number, "line", "has more than truck, fault, ignition, tick, change");
    add_word(u, f[0]);
    add_word(u, f[1]);
    add_word(u, f[2] << 32 | f[3]);
    add_word(u, f[4]);
    return 0;
}

/* All lines of a log onto the updates, a byte order mark in front passed over; every bad line is named. Returns 0 where all are good and the
 * log was read to its end. */
static int read_log(const char *name, struct updates *u)
{
    FILE *in = fopen(name, "r");
    if (!in) {
        fprintf(stderr, "%s: %s\n", name, strerror(errno));
        return 1;
    }
    char *text = NULL;
    size_t room = 0;
    ssize_t got;
    unsigned long number = 0;
    int wrong = 0;
    /* where a read fails within a line, getline hands over the line's front; so ferror is asked too */
    while (errno = 0, (got = getline(&text, &room, in)) != -1 && !ferror(in)) {
        number++;
        if (strlen(text) != (size_t)got) {
            wrong |= bad(name, number, "line", "has a zero byte");
            continue;
        }
        if (got && text[got - 1] == '\n')
            text[--got] = 0;
        if (got && text[got - 1] == '\r')
            text[--got] = 0;
        int marked = number == 1 && !strncmp(text, "\xEF\xBB\xBF", 3);
        wrong |= read_line(name, number, text + (marked ? 3 : 0), u);
    }
    if (!feof(in)) {
        fprintf(stderr, "%s: can't be read to the end: %s\n", name, strerror(errno));
        wrong = 1;
    }
    free(text);
    fclose(in);
    return wrong;
}

static struct chunk lend(size_t len)
{
    struct chunk c = {words_or_die(NULL, len), len};
    return c;
}

/* The words that a chunk takes, by its own table. */
static size_t size_of(const struct chunk *c) { return 4 + 2 * c->words[0] + 2 * c->words[1] + 2 * c->words[2] + c->words[3]; }

/* 0, or 1 with the refusal printed. */
static int refused(const char *name, uint64_t number)
{
    if (number)
        fprintf(stderr, "%s: refused, %" PRIu64 ": %s\n", name, number, refusal(number));
    return number != 0;
}

/* The chunk of the updates in a buffer of the room that the call asks. Returns 0, or 1 with the refusal printed. */
static int form_chunk(const char *name, struct updates *u, struct chunk *c)
{
    *c = lend(4 + 7 * (u->len / 4));
    u->words = words_or_die(u->words, u->len);
    u->room = u->len;
    return refused(name, rl_form_unsorted(u->words, u->len, c->words, c->len));
}

/* What two chunks say together, in place of the first: what is merged of both, without what cancelled, and behind it what is left of the one that
 * goes on. Every buffer has the room that its call asks. Returns 0, or 1 with the refusal printed. */
static int join(const char *name, struct chunk *a, const struct chunk *b)
{
    size_t m = size_of(a), n = size_of(b), items = 0;
    for (int i = 0; i < 3; i++)
        items += a->words[i] + b->words[i];
    struct chunk scratch = lend(3 * items), out = lend(m + n - 4), clean = lend(m + n - 4), rest = lend(m < n ? n : m);
    uint64_t answer[RL_MERGE_WORDS];
    uint64_t number = rl_merge_whole(a->words, a->len, b->words, b->len, scratch.words, scratch.len, out.words, out.len, clean.words,
                                     clean.len, rest.words, rest.len, answer, RL_MERGE_WORDS);
    free(scratch.words);
    free(out.words);
    if (!number && answer[0] != RL_NOBODY) {
        struct chunk both = lend(size_of(&clean) + size_of(&rest) - 4);
        number = rl_meld(clean.words, clean.len, rest.words, rest.len, both.words, both.len);
        free(clean.words);
        clean = both;
    }
    free(rest.words);
    free(a->words);
    *a = clean;
    return refused(name, number);
}

/* One chunk of two, in the first; the second is done with. There is nothing to merge where one is empty. */
static int fold_two(const char *name, struct chunk *a, struct chunk *b)
{
    struct chunk first = *a;
    int wrong = 0;
    if (first.words[2] == 0) {
        *a = *b;
        *b = first;
    } else if (b->words[2] != 0)
        wrong = join(name, a, b);
    free(b->words);
    b->words = NULL;
    return wrong;
}

static int print_chunk(const struct chunk *c)
{
    uint64_t w[RL_WALKER_WORDS], r[RL_RECORD_WORDS], number;
    if ((number = rl_walk_start(c->words, c->len, w, RL_WALKER_WORDS)) == 0) {
        printf("%20s %20s %10s %10s %15s\n", "truck", "fault", "ignition", "tick", "change");
        while ((number = rl_walk_step(c->words, c->len, w, RL_WALKER_WORDS, r, RL_RECORD_WORDS)) == 0)
            printf("%20" PRIu64 " %20" PRIu64 " %10" PRIu64 " %10" PRIu64 " %+15" PRId64 "\n", r[0], r[1], r[2] >> 32, r[2] & UINT32_MAX,
                   (int64_t)r[3]);
    }
    return number == RL_DONE ? 0 : refused("rafterloop", number);
}

/* Each log is formed by itself; then neighbours are merged, and neighbours of those, until one is left. */
static int fold(int count, char **names)
{
    size_t logs = (size_t)count;
    struct chunk *chunks = calloc(logs, sizeof *chunks);
    int wrong = !chunks;
    if (!chunks)
        fprintf(stderr, "rafterloop: no memory for %zu logs\n", logs);
    for (size_t i = 0; chunks && i < logs; i++) {
        struct updates u = {0};
        wrong |= read_log(names[i], &u) || form_chunk(names[i], &u, &chunks[i]);
        free(u.words);
    }
    for (size_t step = 1; !wrong && step < logs; step *= 2)
        for (size_t i = 0; !wrong && i + step < logs; i += 2 * step)
            wrong = fold_two("all logs", &chunks[i], &chunks[i + step]);
    if (!wrong)
        wrong = print_chunk(&chunks[0]);
    for (size_t i = 0; chunks && i < logs; i++)
        free(chunks[i].words);
    free(chunks);
    return wrong;
}

static int check_one(const char *name)
{
    struct updates u = {0};
    struct chunk c = {0};
    uint64_t a[RL_CHECK_WORDS];
    int wrong = read_log(name, &u) || form_chunk(name, &u, &c) || refused(name, rl_check(c.words, c.len, a, RL_CHECK_WORDS));
    if (!wrong)
        printf("%s: good, %zu updates, %" PRIu64 " trucks, %" PRIu64 " records\n", name, u.len / 4, a[1], a[4]);
    free(c.words);
    free(u.words);
    return wrong;
}

int main(int argc, char **argv)
{
    int wrong = 0;
    if (argc >= 3 && !strcmp(argv[1], "fold"))
        wrong = fold(argc - 2, argv + 2);
    else if (argc >= 3 && !strcmp(argv[1], "check"))
        for (int i = 2; i < argc; i++)
            wrong |= check_one(argv[i]);
    else {
        fprintf(stderr, "usage: rafterloop fold LOG..\n       rafterloop check LOG..\n");
        return 2;
    }
    if (fflush(stdout) || ferror(stdout)) {
        fprintf(stderr, "rafterloop: can't write the output\n");
        return 1;
    }
    return wrong;
}
