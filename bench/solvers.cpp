#include "solvers.hpp"

#include <algorithm>
#include <cstring>

void Graph::reserve(uint32_t places, size_t moves) {
  first.resize(places + 1);
  whose.resize(places);
  weight.resize(places);
  pred_at.resize(places + 2);
  pred.resize(moves);
}

bool Graph::read(const uint32_t *w, size_t len) {
  if (len == 0 || w[0] == 0 || w[0] > 16384) return false;
  n = w[0];
  words = w;
  // how many moves lead to v is counted in pred_at[v + 2]; summed up, pred_at[v + 1] is where their
  // places start; filling brings it to where they end
  std::fill_n(pred_at.begin(), n + 2, 0);
  size_t at = 1;
  for (uint32_t v = 0; v < n; v++) {
    if (len - at < 3 || w[at] > 1 || w[at + 1] > 255 || w[at + 2] == 0 || w[at + 2] > len - at - 3) return false;
    whose[v] = uint8_t(w[at]);
    weight[v] = uint8_t(w[at + 1]);
    const size_t end = at + 3 + w[at + 2];
    first[v] = uint32_t(at += 3);
    for (; at < end; at++) {
      if (w[at] >= n) return false;
      pred_at[w[at] + 2]++;
    }
  }
  if (at != len) return false;
  first[n] = uint32_t(len + 3);
  for (uint32_t v = 0; v < n; v++) pred_at[v + 2] += pred_at[v + 1];
  for (uint32_t v = 0; v < n; v++)
    for (uint32_t i = first[v]; i < end(v); i++) pred[pred_at[w[i] + 1]++] = v;
  return true;
}

std::vector<std::vector<uint32_t> *> Solver::all_arrays() {
  return {&state, &list, &queue, &via, &part, &number, &low, &resume, &path, &stack, &order};
}

void Solver::reserve(uint32_t places, size_t moves) {
  graph.reserve(places, moves);
  for (auto *a : all_arrays()) a->resize(places + 1);
}

void Solver::fill(uint8_t byte) {
  auto with = [&](auto &a) { std::memset(a.data(), byte, a.size() * sizeof a[0]); };
  for (auto *a : all_arrays()) with(*a);
  with(graph.first), with(graph.whose), with(graph.weight), with(graph.pred_at), with(graph.pred);
}

// The places in the queue are out of the subgame of this depth already. Takes out all from where
// `side` can bring about one of them; they come to stand behind these, labelled and with their moves.
// Without branches but for the loops: a place is always written behind the tail, and kept if it is
// taken; one of the other side is taken with its last escape.
__attribute__((noinline)) uint32_t Solver::attract(uint32_t side, uint32_t depth, uint32_t tail) {
  const uint32_t own = 2 * depth + side, other = 2 * depth + 1 - side, targets = tail;
  uint32_t *s = state.data(), *q = queue.data(), *through = via.data();
  const uint32_t *at = graph.pred_at.data(), *pred = graph.pred.data();
  cost.attractors++;
  for (uint32_t head = 0; head < tail; head++) {
    const uint32_t u = q[head];
    for (uint32_t i = at[u], end = at[u + 1]; i < end; i++) {
      const uint32_t v = pred[i];
      uint32_t now = s[v];
      const bool here = depth_of(now) == depth, mine = (now & 1023) == own;
      now -= uint32_t(here) << 10;
      const bool take = mine | (now == other);
      s[v] = now - 2 * take;
      q[tail] = v;
      through[tail] = u;
      tail += take;
    }
  }
  for (uint32_t i = targets; i < tail; i++) answer[q[i]] = {side, through[i]};
  cost.steps += tail;
  return tail;
}

// Brings the places of list[lo..hi) that are in the subgame of this depth to the end of that stretch.
uint32_t Solver::gather(uint32_t lo, uint32_t hi, uint32_t depth) {
  uint32_t from = hi;
  for (uint32_t i = hi; i-- > lo;)
    if (depth_of(state[list[i]]) == depth) std::swap(list[i], list[--from]);
  return from;
}

void Solver::count_escapes(uint32_t lo, uint32_t hi, uint32_t depth) {
  for (uint32_t i = lo; i < hi; i++) {
    const uint32_t v = list[i];
    uint32_t count = 0;
    for (uint32_t j = graph.first[v]; j < graph.end(v); j++) count += depth_of(state[graph.words[j]]) == depth;
    state[v] = (state[v] & 1023) + (count << 10);
  }
}

// One turn: R is list[lo..hi), closed in the subgame of this depth, of which `left` places are left.
// Solves R, takes what one side wins in it and the attractor of that out of the subgame; says how many
// places are left then.
template <bool closed>
uint32_t Solver::turn(uint32_t lo, uint32_t hi, uint32_t depth, uint32_t left) {
  const uint32_t size = hi - lo;
  cost.steps += size;
  if (cost.steps > budget) throw CutOff();
  // all of R goes one deeper but the heaviest, which go into the queue
  uint32_t h = 0, tail = 0;
  for (uint32_t i = lo; i < hi; i++) h = std::max<uint32_t>(h, graph.weight[list[i]]);
  for (uint32_t i = lo; i < hi; i++) {
    const uint32_t v = list[i];
    const bool top = graph.weight[v] == h;
    state[v] += 2 * !top;
    queue[tail] = v;
    tail += top;
  }
  const uint32_t p = h & 1, q = 1 - p;
  for (uint32_t i = 0; i < tail; i++) answer[queue[i]].side = p;
  if (tail < size) tail = attract(p, depth + 1, tail);
  uint32_t won = 0;  // how many places of R q wins
  if (tail < size) {
    const uint32_t from = gather(lo, hi, depth + 1);
    level<closed>(from, hi, depth + 1);
    for (uint32_t i = from; i < hi; i++) {
      queue[won] = list[i];
      won += answer[list[i]].side == q;
    }
  }
  const uint32_t side = won > 0 ? q : p;
  if (won > 0) {
    count_escapes(lo, hi, depth);
  } else {  // p wins all of R: its heaviest places get any move into R
    for (uint32_t i = lo; i < hi; i++) {
      const uint32_t v = list[i];
      if (graph.weight[v] == h && graph.whose[v] == p) {
        const uint32_t *m = graph.words + graph.first[v];
        while (depth_of(state[*m]) != depth) m++;
        answer[v].move = *m;
      }
      queue[won++] = v;
    }
  }
  for (uint32_t i = 0; i < won; i++) state[queue[i]] -= 2;
  return left - (won == left ? won : attract(side, depth, won));
}

// Orders list[lo..hi), all in the subgame of this depth, by strongly connected parts, each with a number
// of its own, a part behind those that it can move to (Tarjan, without recursion).
void Solver::split(uint32_t lo, uint32_t hi, uint32_t depth) {
  const uint32_t *w = graph.words, complete = UINT32_MAX;
  cost.splits++;
  cost.steps += hi - lo;
  for (uint32_t i = lo; i < hi; i++) number[list[i]] = 0;
  uint32_t count = 0, ordered = 0, open = 0, deep = 0, greatest = 0;
  for (uint32_t i = lo; i < hi; i++) {
    uint32_t v = list[i];
    if (number[v] != 0) continue;
    uint32_t at = graph.first[v];
    number[v] = low[v] = ++count;
    stack[open++] = v;
    for (;;) {
      const uint32_t end = graph.end(v);
      uint32_t lowest = low[v];
      for (; at < end; at++) {
        if (depth_of(state[w[at]]) != depth) continue;
        if (number[w[at]] == 0) break;
        lowest = std::min(lowest, number[w[at]]);
      }
      low[v] = lowest;
      if (at < end) {  // go on from the new place
        path[deep++] = v;
        resume[v] = at + 1;
        v = w[at];
        at = graph.first[v];
        number[v] = low[v] = ++count;
        stack[open++] = v;
        continue;
      }
      if (lowest == number[v]) {
        parts++;
        const uint32_t before = ordered;
        uint32_t u;
        do {
          u = stack[--open];
          number[u] = complete;
          part[u] = parts;
          order[ordered++] = u;
        } while (u != v);
        greatest = std::max(greatest, ordered - before);
      }
      if (deep == 0) break;
      v = path[--deep];
      low[v] = std::min(low[v], lowest);
      at = resume[v];
    }
  }
  std::copy_n(order.begin(), ordered, list.begin() + lo);
  // where nearly all is one part it did not pay: go without for a while
  next_split = cost.steps + (greatest > (hi - lo) / 8 * 7 ? uint64_t(rule.wait) * (hi - lo) : 0);
}

// Solves the subgame list[lo..hi).
template <bool closed>
void Solver::level(uint32_t lo, uint32_t hi, uint32_t depth) {
  // list[at..end) is the run at hand: all that one can move to from it stands before it and is taken
  // out, so what is left of it is closed in what is left of the subgame
  uint32_t at = lo, end = hi, left = hi - lo;
  bool again = closed && hi - lo > rule.small && cost.steps >= next_split;
  while (left > 0) {
    if (again) {
      split(at, end, depth);
      end = at;
      again = false;
    }
    if (at == end)  // the next run: a part
      while (end < hi && part[list[end]] == part[list[at]]) end++;
    const uint32_t from = gather(at, end, depth);
    const bool touched = from != at;
    at = from;
    if (at == end) continue;
    again = closed && touched && end - at > rule.small && cost.steps >= next_split;
    if (!again) left = turn<closed>(at, end, depth, left);
  }
}

// All places are in the game, of depth 1.
void Solver::start(uint32_t *out) {
  answer = reinterpret_cast<Answer *>(out);
  for (uint32_t v = 0; v < graph.n; v++) {
    state[v] = ((graph.end(v) - graph.first[v]) << 10) + 2 + graph.whose[v];
    list[v] = v;
  }
}

template <bool closed>
Solver::End Solver::solve(const uint32_t *words, size_t len, uint32_t *out, uint64_t limit) {
  cost = {};
  budget = limit;
  parts = 0;
  if (!graph.read(words, len)) return no_game;
  next_split = uint64_t(rule.first) * graph.n;
  start(out);
  try {
    level<closed>(0, graph.n, 1);
  } catch (CutOff) {
    return cut_off;
  }
  return done;
}

Solver::End Solver::solve_plain(const uint32_t *words, size_t len, uint32_t *out, uint64_t limit) {
  return solve<false>(words, len, out, limit);
}
Solver::End Solver::solve_closed(const uint32_t *words, size_t len, uint32_t *out, uint64_t limit) {
  return solve<true>(words, len, out, limit);
}

uint32_t Solver::attractor(uint32_t side, uint32_t target, uint32_t *out) {
  start(out);
  queue[0] = target;
  state[target] -= 2;
  return attract(side, 1, 1);
}

// The queue in order. state counts the moves that a place still waits for: one at a place of `side`, all at
// one of the other's, none at the target. A count goes on below zero and does not come to zero again, so
// that a place is taken once. No branches but for the loops, as in `attract`.
uint32_t Solver::distances(uint32_t side, uint32_t target, uint32_t *out) {
  uint32_t *awaited = state.data(), *q = queue.data(), *through = via.data();
  for (uint32_t v = 0; v < graph.n; v++) {
    awaited[v] = graph.whose[v] == side ? 1 : graph.end(v) - graph.first[v];
    out[2 * v] = never;
    out[2 * v + 1] = graph.words[graph.first[v]];
  }
  awaited[target] = 0;
  out[2 * target] = 0;
  q[0] = target;
  uint32_t tail = 1;
  for (uint32_t head = 0; head < tail; head++) {
    const uint32_t u = q[head];
    for (uint32_t i = graph.pred_at[u], end = graph.pred_at[u + 1]; i < end; i++) {
      const uint32_t v = graph.pred[i];
      q[tail] = v;
      through[tail] = u;
      tail += --awaited[v] == 0;
    }
  }
  for (uint32_t i = 1; i < tail; i++) {
    out[2 * q[i]] = out[2 * through[i]] + 1;
    out[2 * q[i] + 1] = through[i];
  }
  return tail;
}
