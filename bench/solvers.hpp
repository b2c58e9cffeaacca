// Two solvers in C++: the recursion over weights as the textbooks have it, and the same with closed parts.
#pragma once
#include <cstddef>
#include <cstdint>
#include <vector>

// A game ready to be solved: who moves where, and from where.
struct Graph {
  uint32_t n = 0;
  const uint32_t *words = nullptr;
  std::vector<uint32_t> first;  // where in words a place's moves start; they end 3 words before the next place's
  std::vector<uint8_t> whose, weight;
  std::vector<uint32_t> pred_at;  // where in pred the places start that have a move to a place, up to those of the next
  std::vector<uint32_t> pred;

  void reserve(uint32_t places, size_t moves);   // memory for games of this size
  bool read(const uint32_t *words, size_t len);  // false: no game
  uint32_t end(uint32_t v) const { return first[v + 1] - 3; }
};

// What a solver did. A step is a place gone through.
struct Cost {
  uint64_t attractors = 0, splits = 0, steps = 0;
};

class Solver {
 public:
  enum End { done, no_game, cut_off };
  void reserve(uint32_t places, size_t moves);
  void fill(uint8_t byte);  // all memory, so that no run finds what the one before left
  // `out` has two words a place. Cut off after `budget` steps.
  End solve_plain(const uint32_t *words, size_t len, uint32_t *out, uint64_t budget = UINT64_MAX);
  End solve_closed(const uint32_t *words, size_t len, uint32_t *out, uint64_t budget = UINT64_MAX);
  // Takes the attractor for a side of one place in the game that graph.read has read; says how many places.
  uint32_t attractor(uint32_t side, uint32_t target, uint32_t *out);
  // The least number of moves in which a side can make sure of the target, `never` where it cannot, and a
  // move, for each place of that game; says how many places have a number.
  static constexpr uint32_t never = UINT32_MAX;
  uint32_t distances(uint32_t side, uint32_t target, uint32_t *out);
  // When what is at hand is split into strongly connected parts: if it has more than `small` places, from
  // `first` times n steps on, and after one where nearly all was one part not before `wait` times its size
  // steps more. {0, 0, 0} splits always.
  struct Rule {
    uint32_t small, first, wait;
  } rule{32, 4, 8};
  Cost cost;
  Graph graph;

 private:
  struct Answer {
    uint32_t side, move;
  };
  struct CutOff {};
  // A place's state is escapes * 1024 + depth * 2 + whose. Depth is that of the deepest subgame which
  // the place is in, 1 for the whole game; so a place is in the subgame at hand if its depth is that
  // one's. Escapes says how many of its moves lead into that subgame (fewer than 2^22 in this solver).
  std::vector<uint32_t> state;
  std::vector<uint32_t> list;        // places; a subgame is a stretch of it
  std::vector<uint32_t> queue, via;  // places attracted, and through which place
  Answer *answer = nullptr;
  uint64_t budget = 0;
  // strongly connected parts: each place's part; Tarjan's memory
  std::vector<uint32_t> part, number, low, resume, path, stack, order;
  uint32_t parts = 0;
  uint64_t next_split = 0;  // in steps

  std::vector<std::vector<uint32_t> *> all_arrays();
  static uint32_t depth_of(uint32_t s) { return s >> 1 & 511; }
  template <bool closed>
  End solve(const uint32_t *words, size_t len, uint32_t *out, uint64_t budget);
  template <bool closed>
  void level(uint32_t lo, uint32_t hi, uint32_t depth);
  template <bool closed>
  uint32_t turn(uint32_t lo, uint32_t hi, uint32_t depth, uint32_t left);
  uint32_t attract(uint32_t side, uint32_t depth, uint32_t tail);
  uint32_t gather(uint32_t lo, uint32_t hi, uint32_t depth);
  void count_escapes(uint32_t lo, uint32_t hi, uint32_t depth);
  void start(uint32_t *out);
  void split(uint32_t lo, uint32_t hi, uint32_t depth);
};
