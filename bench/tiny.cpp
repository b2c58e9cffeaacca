// Are the C++ solvers and the checkers right? Tiny games against all plans of both sides, numbers of moves
// against those found layer by layer, and alike places against all pairs; then larger ones, where both
// solvers must find the same winners and pass the checker.
#include <cstdio>
#include <set>
#include <string>
#include <vector>

#include "check.hpp"
#include "families.hpp"
#include "moves.hpp"
#include "parts.hpp"
#include "solvers.hpp"

namespace {

using Plan = std::vector<uint32_t>;

// All plans of a side: calls f with each.
template <class F>
void plans(const Made &g, uint32_t side, Plan &plan, size_t v, F f) {
  if (v == g.places.size()) return f();
  if (g.places[v].whose != side) return plans(g, side, plan, v + 1, f);
  for (uint32_t m : g.places[v].moves) {
    plan[v] = m;
    plans(g, side, plan, v + 1, f);
  }
}

// The winner of the play from v when both sides go by this plan (one array for both).
uint32_t winner(const Made &g, const Plan &plan, uint32_t v) {
  for (size_t i = 0; i < g.places.size(); i++) v = plan[v];
  uint32_t heaviest = 0, u = v;
  do {
    heaviest = std::max(heaviest, g.places[u].weight);
    u = plan[u];
  } while (u != v);
  return heaviest % 2;
}

// Who wins each place: side 0 if one of its plans wins against all of side 1's.
std::vector<uint32_t> winners(const Made &g) {
  const size_t n = g.places.size();
  std::vector<uint32_t> sides(n, 1);
  Plan plan(n);
  plans(g, 0, plan, 0, [&] {
    std::vector<bool> wins(n, true);
    plans(g, 1, plan, 0, [&] {
      for (uint32_t v = 0; v < n; v++)
        if (winner(g, plan, v) != 0) wins[v] = false;
    });
    for (uint32_t v = 0; v < n; v++)
      if (wins[v]) sides[v] = 0;
  });
  return sides;
}

// Is this answer right, by all plans: the winners are, each plan is of moves and wins all of its side's places.
bool right(const Made &g, const std::vector<uint32_t> &sides, const Plan &out) {
  const size_t n = g.places.size();
  for (uint32_t side = 0; side < 2; side++) {
    Plan plan(n);
    for (uint32_t v = 0; v < n; v++) {
      if (out[2 * v] != sides[v]) return false;
      plan[v] = g.places[v].moves[0];  // where the side does not win: anything
      if (g.places[v].whose != side || sides[v] != side) continue;
      plan[v] = out[2 * v + 1];
      bool is_move = false;
      for (uint32_t m : g.places[v].moves) is_move |= m == plan[v];
      if (!is_move) return false;
    }
    bool wins = true;
    plans(g, 1 - side, plan, 0, [&] {
      for (uint32_t v = 0; v < n; v++)
        if (sides[v] == side && winner(g, plan, v) != side) wins = false;
    });
    if (!wins) return false;
  }
  return true;
}

// The least number of moves in which a side can make sure of the target, layer by layer: from where within one, within two, ..
std::vector<uint32_t> numbers(const Made &g, uint32_t side, uint32_t target) {
  const uint32_t n = uint32_t(g.places.size());
  std::vector<uint32_t> number(n, Solver::never);
  number[target] = 0;
  for (uint32_t k = 1; k < n; k++)
    for (uint32_t v = 0; v < n; v++) {
      bool some = false, all = true;
      for (uint32_t m : g.places[v].moves) {
        some |= number[m] < k;
        all &= number[m] < k;
      }
      if (number[v] == Solver::never && (g.places[v].whose == side ? some : all)) number[v] = k;
    }
  return number;
}

// Is this answer right: the numbers are, each plan is of moves, and those of the side's places with numbers lead on to one less.
bool right(const Made &g, uint32_t side, const std::vector<uint32_t> &number, const Plan &out) {
  for (uint32_t v = 0; v < g.places.size(); v++) {
    const uint32_t go = out[2 * v + 1];
    bool is_move = false;
    for (uint32_t m : g.places[v].moves) is_move |= m == go;
    if (out[2 * v] != number[v] || !is_move) return false;
    if (g.places[v].whose == side && number[v] != 0 && number[v] != Solver::never && number[go] + 1 != number[v]) return false;
  }
  return true;
}

// The winners, and for each move whether some plan makes it that wins all places which its side wins.
std::vector<uint32_t> marks(const Made &g, const std::vector<uint32_t> &sides) {
  const size_t n = g.places.size();
  std::set<std::pair<uint32_t, uint32_t>> made;
  Plan plan(n);
  for (uint32_t side = 0; side < 2; side++)
    plans(g, side, plan, 0, [&] {
      bool wins = true;
      plans(g, 1 - side, plan, 0, [&] {
        for (uint32_t v = 0; v < n; v++)
          if (sides[v] == side && winner(g, plan, v) != side) wins = false;
      });
      for (uint32_t v = 0; v < n; v++)
        if (wins && sides[v] == side && g.places[v].whose == side) made.insert({v, plan[v]});
    });
  std::vector<uint32_t> out = sides;
  for (uint32_t v = 0; v < n; v++)
    for (uint32_t m : g.places[v].moves) out.push_back(uint32_t(made.count({v, m})));
  return out;
}

// Each place's first alike place: two are apart by side or weight, or since one has a move to where no move of the other's leads to one alike.
std::vector<uint32_t> first_alike(const Made &g) {
  const size_t n = g.places.size();
  std::vector<std::vector<bool>> apart(n, std::vector<bool>(n));
  auto leads = [&](const Made::Place &p, const Made::Place &q) {  // each move of p's has one of q's to a place not apart
    for (uint32_t m : p.moves) {
      bool some = false;
      for (uint32_t k : q.moves) some |= !apart[m][k];
      if (!some) return false;
    }
    return true;
  };
  for (bool more = true; more;) {
    more = false;
    for (size_t u = 0; u < n; u++)
      for (size_t v = 0; v < n; v++) {
        const Made::Place &p = g.places[u], &q = g.places[v];
        if (apart[u][v] || (p.whose == q.whose && p.weight == q.weight && leads(p, q) && leads(q, p))) continue;
        apart[u][v] = more = true;
      }
  }
  std::vector<uint32_t> first(n);
  for (size_t v = 0; v < n; v++)
    while (apart[v][first[v]]) first[v]++;
  return first;
}

int wrong = 0;
void expect(bool ok, const char *what, unsigned game) {
  if (ok) return;
  wrong++;
  std::printf("game %u: %s\n", game, what);
}

}  // namespace

int main() {
  Random r(7);
  unsigned games = 0, places = 0, accepted = 0, refused = 0;
  const Solver::Rule rules[] = {{0, 0, 0}, {1, 0, 1}, {2, 2, 0}, {32, 4, 8}};
  Solver solver;
  for (; games < 20000; games++) {
    Made g;
    const uint32_t n = 1 + r.below(7), weights = 1 + r.below(8), most = 1 + r.below(3);
    for (uint32_t v = 0; v < n; v++) {
      Made::Place p{r.below(2), r.below(weights), {}};
      for (uint32_t i = 1 + r.below(most); i > 0; i--) p.moves.push_back(r.below(n));
      g.places.push_back(p);
    }
    const Words words = g.words();
    const auto sides = winners(g);
    places += n;
    solver.reserve(n, words.size());
    solver.fill(0x5a);
    std::vector<uint32_t> out(2 * n, 9);
    for (uint32_t k = 0; k < 5; k++) {
      if (k > 0) solver.rule = rules[k - 1];
      auto end = k == 0 ? solver.solve_plain(words.data(), words.size(), out.data()) : solver.solve_closed(words.data(), words.size(), out.data());
      expect(end == Solver::done, "not solved", games);
      expect(right(g, sides, out), k == 0 ? "plain is wrong" : "closed is wrong", games);
      expect(wrong_in(words.data(), words.size(), out.data()).empty(), "the checker refuses a right answer", games);
    }
    // the checker on answers that may be wrong
    for (uint32_t k = 0; k < 4; k++) {
      auto other = out;
      for (uint32_t i = 1 + r.below(2); i > 0; i--) other[r.below(2 * n)] = r.below(n + 1);
      const bool ok = wrong_in(words.data(), words.size(), other.data()).empty();
      expect(ok == right(g, sides, other), "the checker is wrong", games);
      ok ? accepted++ : refused++;
    }
    // the numbers of moves to a place, and their checker
    const uint32_t side = r.below(2), target = r.below(n);
    const auto number = numbers(g, side, target);
    solver.graph.read(words.data(), words.size());
    solver.distances(side, target, out.data());
    expect(right(g, side, number, out), "the numbers are wrong", games);
    for (uint32_t k = 0; k < 4; k++) {
      auto other = out;
      for (uint32_t i = r.below(3); i > 0; i--) other[r.below(2 * n)] = r.below(4) ? r.below(n + 1) : Solver::never;
      const bool ok = wrong_distances_in(words.data(), words.size(), target, side, other.data()).empty();
      expect(ok == right(g, side, number, other), "the checker of numbers is wrong", games);
      ok ? accepted++ : refused++;
    }
    // all winning moves, and their checker
    const auto marked = marks(g, sides);
    const Solve by_closed = [&](const Words &game, uint32_t *answer) { solver.solve_closed(game.data(), game.size(), answer); };
    std::vector<uint32_t> moves(marked.size(), 9);
    winning_moves(words, by_closed, moves.data());
    expect(moves == marked, "the winning moves are wrong", games);
    for (uint32_t k = 0; k < 2; k++) {
      auto other = marked;
      if (k > 0) other[r.below(uint32_t(other.size()))] ^= 1;
      const bool ok = wrong_moves_in(words, by_closed, other.data(), 100, games).empty();
      expect(ok == (k == 0), "the checker of winning moves is wrong", games);
      ok ? accepted++ : refused++;
    }
    // alike places, and the smaller game
    const auto first = first_alike(g);
    const Parts found = parts(words);
    const Parts plain = parts_in_rounds(words);
    bool same = plain.of == found.of && plain.rounds == found.rounds;
    for (uint32_t v = 0; v < n; v++)
      for (uint32_t u = 0; u <= v; u++) same &= (found.of[u] == found.of[v]) == (first[u] == first[v]);
    expect(same, "the parts are wrong", games);
    const Words smaller = smaller_game(words, found);
    expect(parts(smaller).count == smaller[0], "the smaller game has alike places", games);
    solver.solve_closed(smaller.data(), smaller.size(), out.data());
    for (uint32_t v = 0; v < n; v++) expect(out[2 * found.of[v]] == sides[v], "the smaller game has other winners", games);
  }
  std::printf("%u games of 1 to 7 places, %u places: both solvers and all winning moves against all plans, numbers of moves layer by layer, alike places by pairs; the checkers on %u right and %u wrong answers more\n", games, places, accepted, refused);

  games = places = 0;
  for (uint32_t i = 0; i < 2000; i++) {
    const uint32_t n = 8 + r.below(200), weights = 1 + r.below(24);
    const Words words = i % 2 ? random_game(n, 1 + r.below(3), weights, i) : clusters(n, 4 + r.below(16), weights, i);
    std::vector<uint32_t> a(2 * n), b(2 * n);
    solver.reserve(n, words.size());
    expect(solver.solve_plain(words.data(), words.size(), a.data()) == Solver::done, "not solved", i);
    expect(wrong_in(words.data(), words.size(), a.data()).empty(), "plain is wrong", i);
    for (const auto &rule : rules) {
      solver.rule = rule;
      solver.solve_closed(words.data(), words.size(), b.data());
      expect(wrong_in(words.data(), words.size(), b.data()).empty(), "closed is wrong", i);
      for (uint32_t v = 0; v < n; v++) expect(a[2 * v] == b[2 * v], "the solvers differ", i);
    }
    const Words more = copies(words, 1 + i % 4, i);
    const Parts found = parts(more);
    const Parts plain = parts_in_rounds(more);
    expect(plain.of == found.of && plain.rounds == found.rounds, "the parts differ", i);
    expect(found.count <= n, "copies are apart", i);
    games++;
    places += n;
  }
  std::printf("%u games of 8 to 207 places, %u places: both solvers by the checker; parts of one to four copies of these, found in both ways\n%d wrong\n", games, places, wrong);
  return wrong != 0;
}
