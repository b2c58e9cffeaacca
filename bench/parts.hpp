// Which places are alike, in C++: the same side and weight, and moves to places that are alike, whatever their
// order and however often each is there. The parts are numbered by their first place.
#pragma once
#include "families.hpp"

struct Parts {
  uint32_t count;
  std::vector<uint32_t> of;  // each place's part
  uint32_t rounds;           // in which places came apart
};

// In rounds, by a map of signatures: all places, until none come apart.
Parts parts_in_rounds(const Words &words);

// In rounds too, but only the places with a move to a place that has a new part since the last one.
Parts parts(const Words &words);

// The game in which each part is one place, which has its moves once and in ascending order.
Words smaller_game(const Words &words, const Parts &parts);
