#include "families.hpp"

#include <algorithm>

Words Made::words() const {
  Words w{uint32_t(places.size())};
  for (const Place &p : places) {
    w.insert(w.end(), {p.whose, p.weight, uint32_t(p.moves.size())});
    w.insert(w.end(), p.moves.begin(), p.moves.end());
  }
  return w;
}

uint64_t Random::next() {
  uint64_t z = (state += 0x9e3779b97f4a7c15u);
  z = (z ^ (z >> 30)) * 0xbf58476d1ce4e5b9u;
  z = (z ^ (z >> 27)) * 0x94d049bb133111ebu;
  return z ^ (z >> 31);
}

// Sides, weights and moves all at random.
Words random_game(uint32_t n, uint32_t moves, uint32_t weights, uint64_t seed) {
  Random r(seed);
  Made g;
  for (uint32_t v = 0; v < n; v++) {
    Made::Place p{r.below(2), r.below(weights), {}};
    for (uint32_t i = 0; i < moves; i++) p.moves.push_back(r.below(n));
    g.places.push_back(p);
  }
  return g.words();
}

// Clusters of `size` places; three moves a place, of which one in twenty leads anywhere.
Words clusters(uint32_t n, uint32_t size, uint32_t weights, uint64_t seed) {
  Random r(seed);
  Made g;
  for (uint32_t v = 0; v < n; v++) {
    Made::Place p{r.below(2), r.below(weights), {}};
    uint32_t base = v / size * size, here = std::min(size, n - base);
    for (uint32_t i = 0; i < 3; i++)
      p.moves.push_back(r.below(20) == 0 ? r.below(n) : base + r.below(here));
    g.places.push_back(p);
  }
  return g.words();
}

// A ring: each place moves to the next and to the one behind it; sides take turns.
Words ladder(uint32_t n, uint32_t weights) {
  Made g;
  for (uint32_t v = 0; v < n; v++)
    g.places.push_back({v % 2, v % weights, {(v + 1) % n, (v + 2) % n}});
  return g.words();
}

// Does a formula with `depth` fixed points, one in the other and by turns greatest and least, hold
// at the states of a small system? A state s of the system goes to two others. At each state there
// are three rails of places: the fixed point i (its weight is that of i, it goes on inwards), the
// choice i (side i % 2 stops here or goes on inwards), and the step from which i begins again at a
// next state (a side chooses which). No side wants to stop at its own choices, so every level counts.
Words model_checker_ladder(uint32_t n, uint32_t depth) {
  uint32_t states = std::max(1u, n / (3 * depth));
  auto fixed = [&](uint32_t s, uint32_t i) { return s * 3 * depth + i; };
  auto choice = [&](uint32_t s, uint32_t i) { return s * 3 * depth + depth + i; };
  auto step = [&](uint32_t s, uint32_t i) { return s * 3 * depth + 2 * depth + i; };
  Made g;
  g.places.resize(states * 3 * depth);
  for (uint32_t s = 0; s < states; s++) {
    uint32_t next = (s + 1) % states, far = (7 * s + 3) % states;
    for (uint32_t i = 0; i < depth; i++) {
      bool in = i + 1 < depth;  // is there a fixed point further inside
      g.places[fixed(s, i)] = {0, depth - 1 - i, {in ? fixed(s, i + 1) : choice(s, 0)}};
      g.places[choice(s, i)] = {i % 2, 0, {step(s, i)}};
      if (in) g.places[choice(s, i)].moves.push_back(choice(s, i + 1));
      g.places[step(s, i)] = {(i / 2 + s) % 2, 0, {fixed(next, i), fixed(far, i)}};
    }
  }
  return g.words();
}

// Recursive ladders (Friedmann 2011): five places a rung, three new weights a rung, so at most 84
// rungs. The recursion over weights takes a time that grows exponentially with the rungs.
Words recursive_ladder(uint32_t n) {
  uint32_t rungs = n / 5;
  auto a = [&](uint32_t i) { return 5 * (i - 1); };      // i from 1
  auto b = [&](uint32_t i) { return 5 * (i - 1) + 1; };  // i from 1
  auto c = [&](uint32_t i) { return 5 * i + 2; };        // i from 0
  auto d = [&](uint32_t i) { return 5 * i + 3; };
  auto e = [&](uint32_t i) { return 5 * i + 4; };
  Made g;
  g.places.resize(5 * rungs);
  for (uint32_t i = 1; i <= rungs; i++) {
    uint32_t p = i % 2;
    g.places[a(i)] = {1 - p, 1 - p, {b(i), d(i - 1)}};
    g.places[b(i)] = {p, 1 - p, {a(i)}};
    if (i < rungs) g.places[b(i)].moves.push_back(c(i));
  }
  for (uint32_t i = 0; i < rungs; i++) {
    uint32_t p = i % 2;
    g.places[c(i)] = {1 - p, 3 * i + 5, {b(i + 1), d(i)}};
    g.places[d(i)] = {p, 3 * i + 4, {e(i)}};
    if (i > 0) g.places[d(i)].moves.push_back(d(i - 1));
    if (i + 1 < rungs) g.places[d(i)].moves.push_back(d(i + 1));
    g.places[e(i)] = {1 - p, 3 * i + 3, {b(i + 1), d(i)}};
  }
  return g.words();
}

// Games on which progress measures are lifted exponentially often (after Jurdzinski 2000). For each
// side one half. Its spine has a place for each level, with a weight of the other side's kind that
// rises with the level; from each the side can go back to the first or one level up, and above the
// last it wins. The places beside the spine are the other side's and let the measure of their level
// count further. A measure of the first place counts through all levels like the digits of a number.
Words slow_measures(uint32_t n, uint32_t levels) {
  uint32_t wide = std::max(1u, (n / 2 - 1) / levels), half = levels * wide + 1;
  Made g;
  for (uint32_t side = 0; side < 2; side++) {
    uint32_t base = side * half, goal = base + half - 1;
    for (uint32_t i = 0; i < levels; i++) {
      uint32_t spine = base + i * wide, weight = 2 * i + 1 + side;
      g.places.push_back({side, weight, {base, i + 1 < levels ? spine + wide : goal}});
      for (uint32_t j = 1; j < wide; j++)
        g.places.push_back({1 - side, weight, {spine, spine + (j + 1) % wide}});
    }
    g.places.push_back({side, side, {goal}});
  }
  return g.words();
}

// Each place moves to itself and to the next one (or, backwards, to the one before).
Words chain(uint32_t n, uint32_t weights, bool forward, uint64_t seed) {
  Random r(seed);
  Made g;
  for (uint32_t v = 0; v < n; v++) {
    Made::Place p{r.below(2), r.below(weights), {v}};
    if (forward ? v + 1 < n : v > 0) p.moves.push_back(forward ? v + 1 : v - 1);
    g.places.push_back(p);
  }
  return g.words();
}

// Place 0, side 1's, has n moves, to all others (one twice). These are side 0's and stand in a row in
// a mixed order, each with a move to the one before it and one to place 0; so they are attracted to
// the heaviest, the first of the row, one by one, and each of them asks place 0 for an escape.
Words one_place_with_all_moves(uint32_t n, uint64_t seed) {
  Random r(seed);
  std::vector<uint32_t> row;
  for (uint32_t v = 1; v < n; v++) row.push_back(v);
  for (uint32_t i = uint32_t(row.size()); i > 1; i--) std::swap(row[i - 1], row[r.below(i)]);
  Made g;
  g.places.resize(n);
  g.places[0] = {1, 1, {1}};
  for (uint32_t v = 1; v < n; v++) g.places[0].moves.push_back(v);
  g.places[row[0]] = {0, 2, {row[0]}};
  for (uint32_t i = 1; i < row.size(); i++) g.places[row[i]] = {0, 0, {0, row[i - 1]}};
  return g.words();
}

// One move a place, anywhere.
Words one_move_each(uint32_t n, uint32_t weights, uint64_t seed) {
  return random_game(n, 1, weights, seed);
}

// So many copies of a game, each move led to the right place of some copy. Copies of a place are alike.
Words copies(const Words &game, uint32_t times, uint64_t seed) {
  Random r(seed);
  const uint32_t n = game[0];
  Made g;
  for (uint32_t copy = 0; copy < times; copy++)
    for (size_t at = 1; at < game.size(); at += 3 + game[at + 2]) {
      Made::Place p{game[at], game[at + 1], {}};
      for (uint32_t i = 0; i < game[at + 2]; i++) p.moves.push_back(r.below(times) * n + game[at + 3 + i]);
      g.places.push_back(p);
    }
  return g.words();
}

// Sides and 8 weights at random; each place moves to the first, to the last and anywhere. So the first and the
// last of the parts that a place moves into say next to nothing.
Words same_ends(uint32_t n, uint64_t seed) {
  Random r(seed);
  Made g;
  for (uint32_t v = 0; v < n; v++) g.places.push_back({r.below(2), r.below(8), {0, n - 1, r.below(n)}});
  return g.words();
}

// The same ends; and all places but the first 512 and the last 512, of one side and weight, also move to two of
// these, which differ by side and 256 weights. So nearly all of them part at once, in one round, and not before.
Words same_ends_at_once(uint32_t n, uint64_t seed) {
  Random r(seed);
  Made g;
  for (uint32_t v = 0; v < n; v++) {
    Made::Place p{0, 0, {0, n - 1}};
    if (v < 512 || v >= n - 512) p.whose = r.below(2), p.weight = r.below(256);
    else
      for (int i = 0; i < 2; i++) {
        const uint32_t to = r.below(1024);
        p.moves.push_back(to < 512 ? to : n - 1024 + to);
      }
    g.places.push_back(p);
  }
  return g.words();
}

std::vector<Family> families() {
  const std::vector<uint32_t> all{1024, 2048, 4096, 8192, 16384};
  std::vector<Family> list;
  for (uint32_t moves : {2u, 3u, 8u})
    for (uint32_t weights : {8u, 64u, 256u})
      list.push_back({"random, " + std::to_string(moves) + " moves, " + std::to_string(weights) + " weights", all,
                      [](uint32_t n, uint32_t a, uint32_t b) { return random_game(n, a, b, 1000 + n); }, moves, weights});
  for (uint32_t size : {16u, 64u, 256u})
    for (uint32_t weights : {16u, 64u, 256u})
      list.push_back({"clusters of " + std::to_string(size) + ", " + std::to_string(weights) + " weights", all,
                      [](uint32_t n, uint32_t a, uint32_t b) { return clusters(n, a, b, 2000 + n); }, size, weights});
  for (uint32_t weights : {2u, 60u, 256u})
    list.push_back({"ladder, " + std::to_string(weights) + " weights", all,
                    [](uint32_t n, uint32_t a, uint32_t) { return ladder(n, a); }, weights, 0});
  for (uint32_t depth : {8u, 32u, 128u})
    list.push_back({"model-checker ladder, depth " + std::to_string(depth), all,
                    [](uint32_t n, uint32_t a, uint32_t) { return model_checker_ladder(n, a); }, depth, 0});
  list.push_back({"recursive ladder", {25, 50, 75, 100, 125, 150},
                  [](uint32_t n, uint32_t, uint32_t) { return recursive_ladder(n); }, 0, 0});
  for (uint32_t levels : {8u, 32u, 120u})
    list.push_back({"slow measures, " + std::to_string(levels) + " levels", all,
                    [](uint32_t n, uint32_t a, uint32_t) { return slow_measures(n, a); }, levels, 0});
  for (uint32_t weights : {2u, 64u, 256u})
    for (uint32_t forward : {1u, 0u})
      list.push_back({std::string(forward ? "chain" : "chain backwards") + ", " + std::to_string(weights) + " weights", all,
                      [](uint32_t n, uint32_t a, uint32_t b) { return chain(n, a, b == 1, 3000 + n); }, weights, forward});
  list.push_back({"one place with all moves", all,
                  [](uint32_t n, uint32_t, uint32_t) { return one_place_with_all_moves(n, 4000 + n); }, 0, 0});
  for (uint32_t weights : {8u, 256u})
    list.push_back({"one move each, " + std::to_string(weights) + " weights", all,
                    [](uint32_t n, uint32_t a, uint32_t) { return one_move_each(n, a, 5000 + n); }, weights, 0});
  return list;
}
