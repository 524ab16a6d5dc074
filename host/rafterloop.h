/* Rafterloop for C: the calls of target/staticlib/libhost.a, which `make` builds of the crate host_c (x86-64, System V calling convention).
 *
 * Every slice is a pointer to 64-bit words and a count of words. The slices of one call must not overlap: no word of one may be a
 * word of another. A pointer is never null, and is aligned to 8 bytes, even where the count is 0.
 *
 * Each call returns 0 where it is accepted, and otherwise the number of its refusal. A refused call changes no lent word, but for the scratch
 * of a merge refused with 14, and for what rl_merge_whole had written before its filter or its suffix was refused. Where it is accepted, words
 * past the chunk or the answer that it writes are unchanged; a merge's scratch holds anything afterwards.
 *
 *   1  the update words are not four each          7  the chunk is empty
 *   2  more than RL_LIMIT updates or times         8  the cursor is not a time with its own value and key
 *   3  updates out of order                        9  a frontier with over 128 corners, or out of order
 *   4  a diff outside -2^40 to 2^40               10  the kept times have over 128 corners
 *   5  not a well formed chunk                    11  the second chunk is not past the first
 *   6  well formed, not settled: a time has       12  fewer words for reports, or for scratch, than both inputs ask
 *      no diff                                    13  an output or an answer is short
 *                                                 14  a sum of two diffs is outside signed 64 bits
 *
 * A chunk is the front of a slice: the counts nk, nv, nt, nd; then nk keys, nk value ends, nv values, nv time ends, nt times,
 * nt diff ends, nd diffs. Its size is 4 + 2 nk + 2 nv + 2 nt + nd. A time word is ignition * 2^32 + tick. A diff is signed.
 */
#ifndef RAFTERLOOP_H
#define RAFTERLOOP_H
#include <stddef.h>
#include <stdint.h>

#ifdef __cplusplus
extern "C" {
#endif

/* The most updates of a form, and the most times of a chunk. */
#define RL_LIMIT 1048576

/* What rl_walk_step returns where no record is left. No refusal has this number. */
#define RL_DONE 100

/* The words of an answer. */
#define RL_CHECK_WORDS 5
#define RL_WALKER_WORDS 7
#define RL_RECORD_WORDS 4
#define RL_FRONTIER_WORDS 129
#define RL_EXTRACT_WORDS 130
#define RL_REPORT_WORDS 3
#define RL_SURVEY_WORDS 1
#define RL_MERGE_WORDS 4

/* The verdict of an extract, the first word of its answer. */
#define RL_ALL_KEPT 0
#define RL_ALL_SHIPPED 1
#define RL_MIXED 2

/* The kind of a report, its first word. */
#define RL_THIS 0
#define RL_THAT 1
#define RL_BOTH 2

/* Who survives a merge, the first word of its answer. */
#define RL_NOBODY 0
#define RL_FIRST 1
#define RL_SECOND 2

/* Whether `words` is a well formed chunk.
 * Answer, 5 words: settled (0 or 1), nk, nv, nt, nd. Refusals in order: 13 the answer has fewer than 5 words; 5. */
uint64_t rl_check(const uint64_t *words, size_t words_len, uint64_t *answer, size_t answer_len);

/* The settled chunk of updates (key, value, time, diff; four words each) that never fall in key, value, time. Equal positions are
 * added, and zero sums dropped.
 * Room: out 4 + 7 * updates. Refusals in order: 1, 2, 3, 4, 13. */
uint64_t rl_form(const uint64_t *updates, size_t updates_len, uint64_t *out, size_t out_len);

/* The same of updates in any order, which are left sorted by key, value, time, then signed diff.
 * Room: out 4 + 7 * updates. Refusals in order: 1, 2, 4, 13. */
uint64_t rl_form_unsorted(uint64_t *updates, size_t updates_len, uint64_t *out, size_t out_len);

/* Chunk b behind chunk a, where the first position of b is past the last of a; where one is empty, the other.
 * Room: out size a + size b - 4. Refusals in order: 5, 6 for a; 5, 6 for b; 2, 11, 13. */
uint64_t rl_meld(const uint64_t *a, size_t a_len, const uint64_t *b, size_t b_len, uint64_t *out, size_t out_len);

/* The chunk without the times that have no diff, and without the values and keys that this leaves empty.
 * Room: out the size of the chunk. Refusals in order: 5, 13. */
uint64_t rl_filter_zero(const uint64_t *words, size_t words_len, uint64_t *out, size_t out_len);

/* The chunk of the first n records, and the chunk of the rest.
 * Room: each output the size of the chunk. Refusals in order: 5, 6, 13. */
uint64_t rl_split_at(const uint64_t *words, size_t words_len, uint64_t n, uint64_t *first, size_t first_len, uint64_t *rest,
                     size_t rest_len);

/* The chunk of the records from the time at index t on; k and v are the indices of its key and its value.
 * Room: out the size of the chunk. Refusals in order: 5, 6, 7, 8, 13. */
uint64_t rl_suffix_chunk(uint64_t k, uint64_t v, uint64_t t, const uint64_t *words, size_t words_len, uint64_t *out, size_t out_len);

/* The chunk of the open records into kept, and of the others into shipped. A time is open where some corner of `upper` is at or below it
 * in ignition and in tick. `upper` is 129 words: the count of its corners, at most 128, and 128 time words, ignitions rising and ticks
 * falling; those past the count are ignored.
 * Answer, 130 words: the verdict (RL_ALL_KEPT, of an empty chunk too, RL_ALL_SHIPPED, RL_MIXED), then the frontier of the kept times as a
 * count and 128 time words, in rising order, zero past the count.
 * Room: each output the size of the chunk. Refusals in order: 13 `upper` has fewer than 129 words, or the answer fewer than 130; 9, 5, 6,
 * 13, 10. */
uint64_t rl_extract(const uint64_t *words, size_t words_len, const uint64_t *upper, size_t upper_len, uint64_t *answer, size_t answer_len,
                    uint64_t *kept, size_t kept_len, uint64_t *shipped, size_t shipped_len);

/* How the keys of two chunks interleave: ascending, a report for each shared key, and one for each longest run of one input's keys.
 * A report is three words: RL_THIS and RL_THAT, with the run's first index in that input and the index past its last; RL_BOTH, with the
 * shared key's index in a and in b. Words past the last report are unchanged.
 * Answer, 1 word: the number of reports.
 * Room: reports 3 * (nk of a + nk of b). Refusals in order: 13 the answer has no word; 5, 6, 7 for a; 5, 6, 7 for b; 12. */
uint64_t rl_survey(const uint64_t *a, size_t a_len, const uint64_t *b, size_t b_len, uint64_t *reports, size_t reports_len, uint64_t *answer,
                   size_t answer_len);

/* Two chunks merged up to the smaller of their last positions: each position in either, ascending, the diffs of a shared one added; a sum of
 * 0 is a time without a diff, which rl_filter_zero drops. The input that goes on past that position survives, from its first position past
 * it: rl_suffix_chunk with the answer's cursor is what is left of it.
 * Answer, 4 words: the survivor (RL_NOBODY, RL_FIRST, RL_SECOND), and its cursor k, v, t; 0, 0, 0 for nobody's.
 * Room: out size words0 + size words1 - 4; scratch 3 * (nk + nv + nt of both). Refusals in order: 13 the answer has fewer than 4 words;
 * 5, 6, 7 for words0; 5, 6, 7 for words1; 2, 12 scratch, 13, 14. */
uint64_t rl_merge_pair(const uint64_t *words0, size_t words0_len, const uint64_t *words1, size_t words1_len, uint64_t *scratch,
                       size_t scratch_len, uint64_t *out, size_t out_len, uint64_t *answer, size_t answer_len);

/* The three that a merge is made of, in one call: rl_merge_pair into out, rl_filter_zero of that into clean, and rl_suffix_chunk of the survivor,
 * from its cursor on, into rest, which stays as it was where nobody survives. Every position of rest is past all of clean, so rl_meld puts the
 * one behind the other.
 * Answer, 4 words: as a merge's.
 * Room: out and scratch as a merge's; clean the size of the merged chunk, which is at most the room of out; rest the size of the surviving
 * input. Refusals in order: 13 the answer has fewer than 4 words; those of the merge; 13 clean; 13 rest. What was written before stays: out
 * where clean is short, out and clean where rest is. */
uint64_t rl_merge_whole(const uint64_t *words0, size_t words0_len, const uint64_t *words1, size_t words1_len, uint64_t *scratch,
                        size_t scratch_len, uint64_t *out, size_t out_len, uint64_t *clean, size_t clean_len, uint64_t *rest,
                        size_t rest_len, uint64_t *answer, size_t answer_len);

/* Where a walk over a chunk starts.
 * Answer, 7 words: k, v, t, d, v_end, t_end, d_end. Refusals in order: 13 the walker has fewer than 7 words; 5. */
uint64_t rl_walk_start(const uint64_t *words, size_t words_len, uint64_t *walker, size_t walker_len);

/* The next record of a walk; the walker goes past it in place.
 * Answer, 4 words: key, value, time, diff. Returns 0 with a record; RL_DONE where none is left, and the walker and the record stay as
 * they were. Refusals in order: 13 the walker has fewer than 7 words, or the record fewer than 4; 5 the table doesn't fit the slice, or
 * a place that must be read is past its body. */
uint64_t rl_walk_step(const uint64_t *words, size_t words_len, uint64_t *walker, size_t walker_len, uint64_t *record,
                      size_t record_len);

#ifdef __cplusplus
}
#endif
#endif
