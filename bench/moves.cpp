#include "moves.hpp"

namespace {

// The moves in the order of the words.
struct Move {
  uint32_t from, to;
  size_t first, end;  // where in the words the moves of its place stand
};

struct Listed {
  std::vector<uint32_t> whose;
  std::vector<Move> moves;
};

Listed list(const Words &words) {
  Listed g;
  for (size_t at = 1; at < words.size();) {
    const size_t first = at + 3, end = first + words[at + 2];
    for (size_t i = first; i < end; i++) g.moves.push_back({uint32_t(g.whose.size()), words[i], first, end});
    g.whose.push_back(words[at]);
    at = end;
  }
  return g;
}

// A game, and an answer to the same in which a place has one move alone.
struct Tried {
  const Words &words;
  const Solve &solve;
  Words made;
  std::vector<uint32_t> answer;

  Tried(const Words &words, const Solve &solve) : words(words), solve(solve), made(words), answer(2 * words[0]) {}
  void alone(const Move &move) {
    for (size_t i = move.first; i < move.end; i++) made[i] = move.to;
    solve(made, answer.data());
    for (size_t i = move.first; i < move.end; i++) made[i] = words[i];
  }
};

// The places that a side wins as a game: these alone, in their order, with the moves among them.
struct Part {
  const Solve &solve;
  Words words{0}, kept;
  std::vector<uint32_t> number, answer;  // of each place, where it is one of them, which it is; an answer to the game
  std::vector<size_t> first, end;        // where in its words the moves of each of them stand

  Part(const Words &game, const uint32_t *winner, uint32_t side, const Solve &solve) : solve(solve), number(game[0]), answer(2 * game[0]) {
    for (uint32_t v = 0; v < game[0]; v++)
      if (winner[v] == side) number[v] = words[0]++;
    size_t at = 1;
    for (uint32_t v = 0; v < game[0]; v++) {
      const size_t head = at;
      at += 3 + game[head + 2];
      if (winner[v] != side) continue;
      words.insert(words.end(), {game[head], game[head + 1], 0});
      first.push_back(words.size());
      for (size_t i = head + 3; i < at; i++)
        if (winner[game[i]] == side) words.push_back(number[game[i]]);
      end.push_back(words.size());
      words[first.back() - 1] = uint32_t(end.back() - first.back());
    }
  }
  // Who wins its place where it has this move alone.
  uint32_t alone(const Move &move) {
    const uint32_t v = number[move.from];
    const auto from = words.begin() + first[v], to = words.begin() + end[v];
    kept.assign(from, to);
    std::fill(from, to, number[move.to]);
    solve(words, answer.data());
    std::copy(kept.begin(), kept.end(), from);
    return answer[2 * v];
  }
};

// The game in which each place whose side wins it has its plan's move alone: does a play come from one place to another?
struct Led {
  std::vector<std::vector<uint32_t>> to;
  std::vector<uint32_t> seen, queue;
  uint32_t searches = 0;

  Led(const Listed &g, const std::vector<uint32_t> &answer) : to(g.whose.size()), seen(g.whose.size(), 0) {
    for (const Move &m : g.moves) to[m.from].push_back(m.to);
    for (size_t v = 0; v < to.size(); v++)
      if (answer[2 * v] == g.whose[v]) to[v] = {answer[2 * v + 1]};
  }
  bool comes_to(uint32_t from, uint32_t target) {
    searches++;
    queue = {from};
    seen[from] = searches;
    for (size_t head = 0; head < queue.size(); head++) {
      if (queue[head] == target) return true;
      for (uint32_t v : to[queue[head]])
        if (seen[v] != searches) seen[v] = searches, queue.push_back(v);
    }
    return false;
  }
};

}  // namespace

Trials winning_moves(const Words &words, const Solve &solve, uint32_t *out) {
  const uint32_t n = words[0];
  const Listed g = list(words);
  std::vector<uint32_t> answer(2 * n);
  solve(words, answer.data());
  Led led(g, answer);
  uint32_t *marks = out + n;
  for (uint32_t v = 0; v < n; v++) out[v] = answer[2 * v];
  for (size_t k = 0; k < g.moves.size(); k++) marks[k] = 0;
  auto mark_plan = [&](uint32_t side, auto makes) {
    uint32_t marked = 0;
    for (size_t k = 0; k < g.moves.size(); k++) {
      const Move &m = g.moves[k];
      if (marks[k] == 1 || out[m.from] != side || g.whose[m.from] != side || !makes(m)) continue;
      marks[k] = 1;
      marked++;
    }
    return marked;
  };
  auto by_first = [&](const Move &m) { return answer[2 * m.from + 1] == m.to; };
  Part parts[2] = {{words, out, 0, solve}, {words, out, 1, solve}};
  Trials trials;
  trials.first = mark_plan(0, by_first) + mark_plan(1, by_first);
  for (size_t k = 0; k < g.moves.size(); k++) {
    const Move &m = g.moves[k];
    const uint32_t side = out[m.from];
    if (marks[k] == 1 || g.whose[m.from] != side || out[m.to] != side) continue;
    if (!led.comes_to(m.to, m.from)) {
      marks[k] = 1;
      trials.avoided++;
      continue;
    }
    trials.games++;
    Part &part = parts[side];
    auto by_part = [&](const Move &other) { return out[other.to] == side && part.answer[2 * part.number[other.from] + 1] == part.number[other.to]; };
    if (part.alone(m) == side) trials.later += mark_plan(side, by_part);
  }
  return trials;
}

std::string wrong_moves_in(const Words &words, const Solve &solve, const uint32_t *out, uint32_t sample, uint64_t seed) {
  const uint32_t n = words[0];
  const Listed g = list(words);
  Tried tried(words, solve);
  solve(words, tried.answer.data());
  for (uint32_t v = 0; v < n; v++)
    if (out[v] != tried.answer[2 * v]) return "place " + std::to_string(v) + " has the wrong winner";

  const uint32_t *marks = out + n;
  auto fault = [&](size_t k) { return "the move " + std::to_string(g.moves[k].from) + " to " + std::to_string(g.moves[k].to) + " has the mark " + std::to_string(marks[k]); };
  std::vector<size_t> staying;
  for (size_t k = 0; k < g.moves.size(); k++) {
    const Move &m = g.moves[k];
    const uint32_t side = out[m.from];
    if (g.whose[m.from] == side && out[m.to] == side) staying.push_back(k);
    else if (marks[k] != 0) return fault(k);
  }
  Random r(seed);
  for (uint32_t i = 0; i < sample && !staying.empty(); i++) {
    const uint32_t at = r.below(uint32_t(staying.size()));
    const size_t k = staying[at];
    staying[at] = staying.back();
    staying.pop_back();
    tried.alone(g.moves[k]);
    const uint32_t v = g.moves[k].from;
    if (marks[k] != uint32_t(tried.answer[2 * v] == out[v])) return fault(k);
  }
  return "";
}
