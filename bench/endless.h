/* The verified library, as crates/endless_c exports it. */
#pragma once
#include <stddef.h>
#include <stdint.h>
#ifdef __cplusplus
extern "C" {
#endif
/* 0: done, two words a place stand in out; 1: out is too short; 2: the words are no game;
   3: work has fewer than 65536 + 4 * words_len words. But for 0, out is as it was. */
uint32_t endless_solve(const uint32_t *words, size_t words_len, uint32_t *out, size_t out_len, uint32_t *work, size_t work_len);
/* From where side 0, or side 1 where side is 1, can bring every play to the target: the same form of answer;
   4: the target is no place. */
uint32_t endless_attract_to(const uint32_t *words, size_t words_len, uint32_t target, uint32_t side, uint32_t *out, size_t out_len, uint32_t *work, size_t work_len);
/* In how many moves side 0, or side 1 where side is 1, can make sure that the play comes to the target: 0: done,
   for each place that number, 2^32 - 1 where the side cannot, and a move; else as above. */
uint32_t endless_distances_to(const uint32_t *words, size_t words_len, uint32_t target, uint32_t side, uint32_t *out, size_t out_len, uint32_t *work, size_t work_len);
/* All moves that some winning plan makes: 0: done, for each place who wins it, and then for each move, in the order of
   the words, 1 or 0; 3: work has fewer than 65536 + 9 * words_len words; else as endless_solve. */
uint32_t endless_winning_moves(const uint32_t *words, size_t words_len, uint32_t *out, size_t out_len, uint32_t *work, size_t work_len);
/* The smaller game in which alike places are one: 0: done, for each place which place of it stands in to, its words in
   smaller, and how many these are in *len; 1: to has fewer words than there are places, or smaller than words_len; else
   as endless_solve. But for 0, *len is as it was too. */
uint32_t endless_merge(const uint32_t *words, size_t words_len, uint32_t *to, size_t to_len, uint32_t *smaller, size_t smaller_len, size_t *len, uint32_t *work, size_t work_len);
/* As endless_solve, through the smaller game; 3: work has fewer than 65536 + 6 * words_len words. */
uint32_t endless_solve_merged(const uint32_t *words, size_t words_len, uint32_t *out, size_t out_len, uint32_t *work, size_t work_len);
/* Whether an answer is one: 0 right; 1 wrong; 2 the words are no game; 3 work has fewer than 65536 + 4 * words_len words. */
uint32_t endless_check(const uint32_t *words, size_t words_len, const uint32_t *answer, size_t answer_len, uint32_t *work, size_t work_len);
#ifdef __cplusplus
}
#endif
