// Is this an answer to that game? Shares nothing with the solvers but the words.
#pragma once
#include <cstddef>
#include <cstdint>
#include <string>

// "" where the answer is right, else what is wrong. `words` must be a game, `out` hold two words a place.
std::string wrong_in(const uint32_t *words, size_t words_len, const uint32_t *out);

// "" where for each place `out` has the least number of moves in which `side` can make sure of the target
// (2^32 - 1 where it cannot), and a move: at its own places with a number one that leads on to a place with
// one less. Looked at from move to move, which only the right numbers pass: one more than the least of the
// moves at the side's own places, than the greatest at the other's.
std::string wrong_distances_in(const uint32_t *words, size_t words_len, uint32_t target, uint32_t side, const uint32_t *out);
