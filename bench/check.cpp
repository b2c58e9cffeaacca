#include "check.hpp"

#include <algorithm>
#include <vector>

namespace {

using Lists = std::vector<std::vector<uint32_t>>;

struct Read {
  uint32_t n;
  std::vector<uint32_t> whose, weight;
  Lists moves;
  bool is_game;  // whether the words end behind the last place
};

Read read(const uint32_t *words, size_t words_len) {
  const uint32_t n = words[0];
  Read g{n, std::vector<uint32_t>(n), std::vector<uint32_t>(n), Lists(n), false};
  size_t at = 1;
  for (uint32_t v = 0; v < n; v++) {
    g.whose[v] = words[at];
    g.weight[v] = words[at + 1];
    g.moves[v].assign(words + at + 3, words + at + 3 + words[at + 2]);
    at += 3 + words[at + 2];
  }
  g.is_game = at == words_len;
  return g;
}

// A place of weight `k` on a round through places of weight at most `k`, or -1: it lies in a strongly
// connected part (Tarjan, without recursion) that has more than one place or a move to itself.
int64_t on_a_round(const Lists &moves, const std::vector<uint32_t> &weight, uint32_t k) {
  const uint32_t n = uint32_t(moves.size()), unseen = 0, closed = UINT32_MAX;
  std::vector<uint32_t> number(n, unseen), low(n), at(n), stack, path;
  uint32_t count = 0;
  auto open = [&](uint32_t v) {
    number[v] = low[v] = ++count;
    at[v] = 0;
    stack.push_back(v);
    path.push_back(v);
  };
  for (uint32_t start = 0; start < n; start++) {
    if (weight[start] != k || number[start] != unseen) continue;
    open(start);
    while (!path.empty()) {
      uint32_t v = path.back();
      if (at[v] < moves[v].size()) {
        uint32_t m = moves[v][at[v]++];
        if (weight[m] > k || number[m] == closed) continue;
        if (number[m] == unseen) open(m);
        else low[v] = std::min(low[v], number[m]);
        continue;
      }
      path.pop_back();
      if (!path.empty()) low[path.back()] = std::min(low[path.back()], low[v]);
      if (low[v] != number[v]) continue;
      bool round = stack.back() != v || std::count(moves[v].begin(), moves[v].end(), v) > 0;
      for (uint32_t u = n; u != v;) {
        u = stack.back();
        stack.pop_back();
        number[u] = closed;
        if (round && weight[u] == k) return u;
      }
    }
  }
  return -1;
}

}  // namespace

std::string wrong_in(const uint32_t *words, size_t words_len, const uint32_t *out) {
  auto [n, whose, weight, moves, is_game] = read(words, words_len);
  if (!is_game) return "these words are no game";

  // each side stays where it wins: by its plan, and whatever the other side does
  for (uint32_t v = 0; v < n; v++) {
    uint32_t side = out[2 * v], go = out[2 * v + 1];
    if (side > 1) return "place " + std::to_string(v) + " is won by no side";
    if (whose[v] == side) {
      if (std::count(moves[v].begin(), moves[v].end(), go) == 0)
        return "place " + std::to_string(v) + ": the plan is no move";
      moves[v].assign(1, go);
    }
    for (uint32_t m : moves[v])
      if (out[2 * m] != side) return "place " + std::to_string(v) + ": a move leads out of what is won";
  }
  // no round is of the wrong kind (no move leads from one side's places to the other's, so both at once)
  std::vector<bool> occurs(256);
  for (uint32_t v = 0; v < n; v++) occurs[weight[v]] = true;
  for (uint32_t side = 0; side < 2; side++) {
    Lists mine = moves;
    for (uint32_t v = 0; v < n; v++)
      if (out[2 * v] != side) mine[v].clear();
    for (uint32_t k = 1 - side; k < 256; k += 2) {
      if (!occurs[k]) continue;
      int64_t v = on_a_round(mine, weight, k);
      if (v >= 0)
        return "place " + std::to_string(v) + ": side " + std::to_string(side) + " is given a round with heaviest weight " + std::to_string(k);
    }
  }
  return "";
}

std::string wrong_distances_in(const uint32_t *words, size_t words_len, uint32_t target, uint32_t side, const uint32_t *out) {
  const Read g = read(words, words_len);
  if (!g.is_game) return "these words are no game";
  const uint32_t never = UINT32_MAX;
  for (uint32_t v = 0; v < g.n; v++) {
    const uint32_t number = out[2 * v], go = out[2 * v + 1];
    const bool own = g.whose[v] == side;
    uint32_t least = never, greatest = 0;
    for (uint32_t m : g.moves[v]) {
      least = std::min(least, out[2 * m]);
      greatest = std::max(greatest, out[2 * m]);
    }
    const uint32_t far = own ? least : greatest, should = v == target ? 0 : far == never ? never : far + 1;
    if (number != should) return "place " + std::to_string(v) + " has the number " + std::to_string(number) + ", should be " + std::to_string(should);
    if (std::count(g.moves[v].begin(), g.moves[v].end(), go) == 0) return "place " + std::to_string(v) + ": the plan is no move";
    if (own && number != never && v != target && out[2 * go] + 1 != number) return "place " + std::to_string(v) + ": the move leads on to no place with one less";
  }
  return "";
}
