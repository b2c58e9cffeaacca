// Games for the benchmark, each made the same at every run.
#pragma once
#include <cstdint>
#include <string>
#include <vector>

using Words = std::vector<uint32_t>;

// A game while it is being made.
struct Made {
  struct Place {
    uint32_t whose, weight;
    std::vector<uint32_t> moves;
  };
  std::vector<Place> places;
  Words words() const;
};

// A small generator of numbers (splitmix64).
struct Random {
  uint64_t state;
  explicit Random(uint64_t seed) : state(seed) {}
  uint64_t next();
  uint32_t below(uint32_t k) { return uint32_t((next() >> 32) * k >> 32); }
};

Words random_game(uint32_t n, uint32_t moves, uint32_t weights, uint64_t seed);
Words clusters(uint32_t n, uint32_t size, uint32_t weights, uint64_t seed);
Words ladder(uint32_t n, uint32_t weights);
Words model_checker_ladder(uint32_t n, uint32_t depth);
Words recursive_ladder(uint32_t n);
Words slow_measures(uint32_t n, uint32_t levels);
Words chain(uint32_t n, uint32_t weights, bool forward, uint64_t seed);
Words one_place_with_all_moves(uint32_t n, uint64_t seed);
Words one_move_each(uint32_t n, uint32_t weights, uint64_t seed);
Words copies(const Words &game, uint32_t times, uint64_t seed);
Words same_ends(uint32_t n, uint64_t seed);
Words same_ends_at_once(uint32_t n, uint64_t seed);

struct Family {
  std::string name;
  std::vector<uint32_t> sizes;
  Words (*make)(uint32_t n, uint32_t a, uint32_t b);
  uint32_t a, b;
  Words game(uint32_t n) const { return make(n, a, b); }
};

// All of them, in the order of the table.
std::vector<Family> families();
