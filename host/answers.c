/* Answers cases of standard input, a line each, for oracle/compare.py: every number, every word written, and whether anything else
 * changed. `call word.. | slice | slice`, words in decimal; a line may start with @N, which lends each output N words more than the room
 * asked (or fewer; 3 more where nothing is said), or with @N,U,A,C,R, by which an extract's frontier or a merge's scratch has U words more, the
 * answer of an extract, a survey or a merge A, and a whole merge's clean and rest C and R more than the most that can be asked (or fewer; 0, 2, 0
 * and 0 where nothing is said). The answer: the number, and for an accepted call each output after ` | `.
 * Each lent slice stands between guard words; `changed` in an answer says that a word changed that must not. */
#include "rafterloop.h"
#include <inttypes.h>
#include <stdio.h>
#include <stdlib.h>
#include <string.h>

enum { GUARD = 4, SLICES = 7 };

/* A slice between guards, and what it held when it was lent. */
struct slice {
    uint64_t *words;
    uint64_t *before;
    size_t len;
};

static struct slice lent[SLICES];
static int count;
static int changed;
static long more_upper, more_answer, more_clean, more_rest; /* of an extract, a survey and a merge */

static struct slice *lend(size_t len)
{
    struct slice *s = &lent[count++];
    s->words = (uint64_t *)malloc((len + 2 * GUARD) * sizeof(uint64_t));
    s->before = (uint64_t *)malloc((len + 2 * GUARD) * sizeof(uint64_t));
    if (!s->words || !s->before)
        exit(3);
    for (size_t i = 0; i < len + 2 * GUARD; i++)
        s->words[i] = 0x9e3779b97f4a7c15u * (i + 1 + 7919u * (size_t)count);
    s->words += GUARD;
    s->len = len;
    return s;
}

static void remember(void)
{
    for (int i = 0; i < count; i++)
        memcpy(lent[i].before, lent[i].words - GUARD, (lent[i].len + 2 * GUARD) * sizeof(uint64_t));
}

/* The words of a slice from `from` on, and both its guards, must be as they were. */
static void same_from(struct slice *s, size_t from)
{
    if (memcmp(s->before, s->words - GUARD, GUARD * sizeof(uint64_t)))
        changed = 1;
    if (from > s->len || memcmp(s->before + GUARD + from, s->words + from, (s->len - from + GUARD) * sizeof(uint64_t)))
        changed = 1;
}

static struct slice *parse(char *text)
{
    size_t n = 0;
    for (char *p = text; *p;) {
        p += strspn(p, " ");
        if (*p) {
            n++;
            p += strcspn(p, " ");
        }
    }
    struct slice *s = lend(n);
    for (size_t i = 0; i < n; i++)
        s->words[i] = strtoull(text, &text, 10);
    return s;
}

/* A chunk's size by its table; the slice's length where the table can't be right. */
static size_t size_of(const uint64_t *w, size_t len)
{
    if (len < 4 || w[0] > len || w[1] > len || w[2] > len || w[3] > len)
        return len;
    size_t size = 4 + 2 * w[0] + 2 * w[1] + 2 * w[2] + w[3];
    return size > len ? len : size;
}

static struct slice *lend_room(size_t room, long more)
{
    return lend(more < 0 && room < (size_t)-more ? 0 : room + (size_t)more);
}

static void print_words(const uint64_t *w, size_t n)
{
    printf(" |");
    for (size_t i = 0; i < n; i++)
        printf(" %" PRIu64, w[i]);
}

/* An output of an accepted call: its chunk, or its first `n` words. */
static void written(struct slice *s, size_t n)
{
    same_from(s, n);
    print_words(s->words, n);
}

static void written_chunk(struct slice *s) { written(s, size_of(s->words, s->len)); }

/* All lent slices but the last `outputs` must be whole; of a refused call, all. */
static void untouched(uint64_t number, int outputs)
{
    for (int i = 0; i < count - (number ? 0 : outputs); i++)
        same_from(&lent[i], 0);
}

static void one_chunk(const char *name, uint64_t n, char *text, long more)
{
    struct slice *a = parse(text);
    size_t room = size_of(a->words, a->len);
    int split = !strcmp(name, "split");
    struct slice *first = lend_room(room, more);
    struct slice *rest = split ? lend_room(room, more) : NULL;
    remember();
    uint64_t number = split ? rl_split_at(a->words, a->len, n, first->words, first->len, rest->words, rest->len)
                            : rl_filter_zero(a->words, a->len, first->words, first->len);
    printf("%" PRIu64, number);
    untouched(number, split ? 2 : 1);
    if (number)
        return;
    written_chunk(first);
    if (split)
        written_chunk(rest);
}

static void suffix(char *cursor, char *text, long more)
{
    struct slice *a = parse(text), *at = parse(cursor);
    struct slice *out = lend_room(size_of(a->words, a->len), more);
    remember();
    uint64_t number = rl_suffix_chunk(at->words[0], at->words[1], at->words[2], a->words, a->len, out->words, out->len);
    printf("%" PRIu64, number);
    untouched(number, 1);
    if (!number)
        written_chunk(out);
}

static void form(int unsorted, char *text, long more)
{
    struct slice *u = parse(text);
    struct slice *out = lend_room(4 + 7 * (u->len / 4), more);
    remember();
    uint64_t number = unsorted ? rl_form_unsorted(u->words, u->len, out->words, out->len) : rl_form(u->words, u->len, out->words, out->len);
    printf("%" PRIu64, number);
    untouched(number, unsorted ? 2 : 1);
    if (number)
        return;
    written_chunk(out);
    if (unsorted)
        written(u, u->len);
}

static void meld(char *one, char *two, long more)
{
    struct slice *a = parse(one), *b = parse(two);
    struct slice *out = lend_room(size_of(a->words, a->len) + size_of(b->words, b->len) - 4, more);
    remember();
    uint64_t number = rl_meld(a->words, a->len, b->words, b->len, out->words, out->len);
    printf("%" PRIu64, number);
    untouched(number, 1);
    if (!number)
        written_chunk(out);
}

/* `extract count corner..`: the corners stand in the first places of `upper`, and the places past them hold what lend() put there. */
static void extract(char *corners, char *text, long more)
{
    struct slice *a = parse(text);
    struct slice *given = parse(corners);
    struct slice *upper = lend_room(RL_FRONTIER_WORDS, more_upper);
    struct slice *answer = lend_room(RL_EXTRACT_WORDS, more_answer);
    memcpy(upper->words, given->words, (given->len < upper->len ? given->len : upper->len) * sizeof(uint64_t));
    size_t room = size_of(a->words, a->len);
    struct slice *kept = lend_room(room, more), *shipped = lend_room(room, more);
    remember();
    uint64_t number = rl_extract(a->words, a->len, upper->words, upper->len, answer->words, answer->len, kept->words, kept->len,
                                 shipped->words, shipped->len);
    printf("%" PRIu64, number);
    untouched(number, 3);
    if (number)
        return;
    written_chunk(kept);
    written_chunk(shipped);
    written(answer, RL_EXTRACT_WORDS);
}

static void survey(char *one, char *two, long more)
{
    struct slice *a = parse(one), *b = parse(two);
    size_t keys = (a->len > 3 && a->words[0] <= a->len ? a->words[0] : 0) + (b->len > 3 && b->words[0] <= b->len ? b->words[0] : 0);
    struct slice *reports = lend_room(RL_REPORT_WORDS * keys, more);
    struct slice *answer = lend_room(RL_SURVEY_WORDS, more_answer);
    remember();
    uint64_t number = rl_survey(a->words, a->len, b->words, b->len, reports->words, reports->len, answer->words, answer->len);
    printf("%" PRIu64, number);
    untouched(number, 2);
    if (number)
        return;
    written(answer, RL_SURVEY_WORDS);
    written(reports, RL_REPORT_WORDS * answer->words[0]);
}

/* What a merge asks of its scratch. */
static size_t scratch_room(const struct slice *a, const struct slice *b)
{
    size_t items = 0;
    for (int i = 0; i < 3; i++)
        items += (a->len > 3 && a->words[i] <= a->len ? a->words[i] : 0) + (b->len > 3 && b->words[i] <= b->len ? b->words[i] : 0);
    return 3 * items;
}

/* Scratch is the caller's no more after acceptance or 14; its guards still are. */
static void merge(char *one, char *two, long more)
{
    struct slice *a = parse(one), *b = parse(two);
    struct slice *out = lend_room(size_of(a->words, a->len) + size_of(b->words, b->len) - 4, more);
    struct slice *answer = lend_room(RL_MERGE_WORDS, more_answer);
    struct slice *scratch = lend_room(scratch_room(a, b), more_upper);
    remember();
    uint64_t number = rl_merge_pair(a->words, a->len, b->words, b->len, scratch->words, scratch->len, out->words, out->len, answer->words,
                                    answer->len);
    printf("%" PRIu64, number);
    same_from(scratch, number && number != 14 ? 0 : scratch->len);
    count--;
    untouched(number, 2);
    count++;
    if (number)
        return;
    written_chunk(out);
    written(answer, RL_MERGE_WORDS);
}

/* Where the filter's or the suffix's output is short, 13, what was written before stays, so only the guards of out and clean are held; of the
 * other refusals all their words. The rest is written where one input survives. */
static void whole(char *one, char *two, long more)
{
    struct slice *a = parse(one), *b = parse(two);
    size_t m = size_of(a->words, a->len), n = size_of(b->words, b->len);
    struct slice *rest = lend_room(m < n ? n : m, more_rest);
    struct slice *answer = lend_room(RL_MERGE_WORDS, more_answer);
    struct slice *out = lend_room(m + n - 4, more);
    struct slice *clean = lend_room(m + n - 4, more_clean);
    struct slice *scratch = lend_room(scratch_room(a, b), more_upper);
    remember();
    uint64_t number = rl_merge_whole(a->words, a->len, b->words, b->len, scratch->words, scratch->len, out->words, out->len, clean->words,
                                     clean->len, rest->words, rest->len, answer->words, answer->len);
    printf("%" PRIu64, number);
    same_from(scratch, number && number != 13 && number != 14 ? 0 : scratch->len);
    same_from(out, number && number != 13 ? 0 : out->len);
    same_from(clean, number && number != 13 ? 0 : clean->len);
    count -= 3;
    untouched(number, 2);
    count += 3;
    if (number)
        return;
    written_chunk(out);
    written_chunk(clean);
    if (answer->words[0] == RL_NOBODY)
        written(rest, 0);
    else
        written_chunk(rest);
    written(answer, RL_MERGE_WORDS);
}

static void fields(int start, char *text, long more)
{
    struct slice *a = parse(text);
    size_t n = start ? RL_WALKER_WORDS : RL_CHECK_WORDS;
    struct slice *answer = lend_room(n, more);
    remember();
    uint64_t number = (start ? rl_walk_start : rl_check)(a->words, a->len, answer->words, answer->len);
    printf("%" PRIu64, number);
    untouched(number, 1);
    if (!number)
        written(answer, n);
}

static void step(char *at, char *text, long more)
{
    struct slice *a = parse(text);
    struct slice *walker = parse(at);
    struct slice *record = lend_room(RL_RECORD_WORDS, more);
    remember();
    uint64_t number = rl_walk_step(a->words, a->len, walker->words, walker->len, record->words, record->len);
    printf("%" PRIu64, number);
    untouched(number, 2);
    if (number)
        return;
    written(walker, RL_WALKER_WORDS);
    written(record, RL_RECORD_WORDS);
}

/* A whole walk: every record, and that done is said twice. */
static void walk(char *text)
{
    struct slice *a = parse(text);
    uint64_t w[RL_WALKER_WORDS], r[RL_RECORD_WORDS];
    remember();
    uint64_t number = rl_walk_start(a->words, a->len, w, RL_WALKER_WORDS);
    printf("%" PRIu64, number);
    same_from(a, 0);
    if (number)
        return;
    printf(" |");
    while ((number = rl_walk_step(a->words, a->len, w, RL_WALKER_WORDS, r, RL_RECORD_WORDS)) == 0)
        printf(" %" PRIu64 " %" PRIu64 " %" PRIu64 " %" PRIu64, r[0], r[1], r[2], r[3]);
    if (number != RL_DONE || rl_walk_step(a->words, a->len, w, RL_WALKER_WORDS, r, RL_RECORD_WORDS) != RL_DONE)
        changed = 1;
    same_from(a, 0);
}

static void answer(char *line)
{
    char *parts[3] = {line, "", ""};
    for (int i = 1; i < 3; i++) {
        char *bar = strchr(parts[i - 1], '|');
        if (!bar)
            break;
        *bar = 0;
        parts[i] = bar + 1;
    }
    long more = 3;
    more_upper = 0;
    more_answer = 2;
    more_clean = more_rest = 0;
    char *p = line + strspn(line, " ");
    if (*p == '@')
        more = strtol(p + 1, &p, 10);
    if (*p == ',')
        more_upper = strtol(p + 1, &p, 10);
    if (*p == ',')
        more_answer = strtol(p + 1, &p, 10);
    if (*p == ',')
        more_clean = strtol(p + 1, &p, 10);
    if (*p == ',')
        more_rest = strtol(p + 1, &p, 10);
    p += strspn(p, " ");
    char *rest = p + strcspn(p, " ");
    if (*rest)
        *rest++ = 0;
    if (!strcmp(p, "form") || !strcmp(p, "form_unsorted"))
        form(p[4] != 0, rest, more);
    else if (!strcmp(p, "filter") || !strcmp(p, "split"))
        one_chunk(p, strtoull(rest, NULL, 10), parts[1], more);
    else if (!strcmp(p, "suffix"))
        suffix(rest, parts[1], more);
    else if (!strcmp(p, "meld"))
        meld(parts[1], parts[2], more);
    else if (!strcmp(p, "extract"))
        extract(rest, parts[1], more);
    else if (!strcmp(p, "survey"))
        survey(parts[1], parts[2], more);
    else if (!strcmp(p, "merge"))
        merge(parts[1], parts[2], more);
    else if (!strcmp(p, "whole"))
        whole(parts[1], parts[2], more);
    else if (!strcmp(p, "check") || !strcmp(p, "start"))
        fields(*p == 's', parts[1], more);
    else if (!strcmp(p, "step"))
        step(rest, parts[1], more);
    else if (!strcmp(p, "walk"))
        walk(parts[1]);
    else
        printf("unknown");
}

int main(void)
{
    char *line = NULL;
    size_t room = 0;
    ssize_t got;
    while ((got = getline(&line, &room, stdin)) != -1) {
        if (got && line[got - 1] == '\n')
            line[got - 1] = 0;
        count = 0;
        changed = 0;
        answer(line);
        printf("%s\n", changed ? " changed" : "");
        for (int i = 0; i < count; i++) {
            free(lent[i].words - GUARD);
            free(lent[i].before);
        }
    }
    free(line);
    return ferror(stdout) ? 1 : 0;
}
