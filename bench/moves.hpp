// All moves that some winning plan makes, in C++: for each place who wins it, and for each move a mark.
#pragma once
#include <functional>
#include <string>

#include "families.hpp"

// Solves a game: two words a place.
using Solve = std::function<void(const Words &words, uint32_t *out)>;

// How the moves with a mark got it, and how many games were solved for this beside the first.
struct Trials {
  uint32_t first = 0, avoided = 0, later = 0, games = 0;
};

// By the library's rule, with any solver: the moves of the first answer's plans are marked; then each move without a
// mark that stays in what its place's side wins is tried. If no play that goes by that side's plan comes back to the
// place from where the move leads, it is marked. Else the game in which its place has it alone is solved within what the
// side wins, and if it wins the place there, the moves of its plan are marked. `out` has a word a place and a word a move.
Trials winning_moves(const Words &words, const Solve &solve, uint32_t *out);

// "" where no fault is found, else what is wrong. Every place's winner is looked at, and every mark of a move that its
// place's winner does not make or that leads out of what it wins; of the others, `sample` marks.
std::string wrong_moves_in(const Words &words, const Solve &solve, const uint32_t *out, uint32_t sample, uint64_t seed);
