// The verified library beside two C++ solvers, on games of every family. Prints a table.
//   bench [PART [SIZE]]   only families with PART in their name, only games of about SIZE places;
//                         "winning moves" and "alike places" are parts too
#include <sys/resource.h>
#include <sys/wait.h>
#include <unistd.h>

#include <algorithm>
#include <cmath>
#include <cstdio>
#include <cstdlib>
#include <cstring>
#include <ctime>
#include <functional>
#include <map>

#include "check.hpp"
#include "endless.h"
#include "families.hpp"
#include "moves.hpp"
#include "parts.hpp"
#include "solvers.hpp"

namespace {

const uint64_t budget = 400'000'000;  // steps of a C++ solver, a few seconds
const rlim_t seconds = 5;             // of the library

double now() {  // milliseconds of this thread's processor time
  timespec t;
  clock_gettime(CLOCK_THREAD_CPUTIME_ID, &t);
  return double(t.tv_sec) * 1e3 + double(t.tv_nsec) * 1e-6;
}

struct Timed {
  std::function<void()> clear, run;
  bool cut = false;
  unsigned times = 1;  // runs in a sample, so that it takes about ten milliseconds
  double best = INFINITY, worst = 0;

  double once() {
    clear();
    const double from = now();
    run();
    return now() - from;
  }
  void sample() {
    double sum = 0;
    for (unsigned i = 0; i < times; i++) sum += once();
    best = std::min(best, sum / times);
    worst = std::max(worst, sum / times);
  }
};

// Does f end within the seconds? Tried in a process of its own, since the library cannot be stopped.
bool ends(const std::function<void()> &f) {
  std::fflush(stdout);
  const pid_t child = fork();
  if (child == 0) {
    const rlimit limit{seconds, seconds};
    setrlimit(RLIMIT_CPU, &limit);
    f();
    _exit(0);
  }
  int status = 1;
  waitpid(child, &status, 0);
  return WIFEXITED(status) && WEXITSTATUS(status) == 0;
}

std::string ms(const Timed &t) {
  char s[32];
  if (t.cut) return "      cut off";
  std::snprintf(s, sizeof s, "%9.3f %+3.0f%%", t.best, std::min(999.0, (t.worst / t.best - 1) * 100));
  return s;
}

// The worst of something over the table, and where.
struct Worst {
  double value = 0;
  std::string where = "-";
  void take(double v, const std::string &w) {
    if (v > value) value = v, where = w;
  }
};

struct Row {
  uint32_t n;
  double lists, endless, plain, closed;  // milliseconds; infinite where cut off
};

int wrong = 0;

Row measure(const std::string &name, const Words &words) {
  const uint32_t n = words[0];
  const size_t len = words.size(), moves = len - 1 - 3 * size_t(n);
  std::vector<uint32_t> out[3], work(65536 + 4 * len);
  for (auto &o : out) o.resize(2 * n);
  Solver plain, closed;
  plain.reserve(n, moves);
  closed.reserve(n, moves);
  auto filled = [](std::vector<uint32_t> &a) { std::memset(a.data(), 0x5a, 4 * a.size()); };
  bool stopped = false;
  uint32_t said = 0;

  Timed t[4];
  enum { library, textbook, parts, lists };
  t[library].clear = [&] { filled(work), filled(out[0]); };
  t[library].run = [&] { said = endless_solve(words.data(), len, out[0].data(), out[0].size(), work.data(), work.size()); };
  t[textbook].clear = [&] { plain.fill(0x5a), filled(out[1]); };
  t[textbook].run = [&] { stopped = plain.solve_plain(words.data(), len, out[1].data(), budget) == Solver::cut_off; };
  t[parts].clear = [&] { closed.fill(0x5a), filled(out[2]); };
  t[parts].run = [&] { stopped = closed.solve_closed(words.data(), len, out[2].data(), budget) == Solver::cut_off; };
  t[lists].clear = t[textbook].clear;
  t[lists].run = [&] { plain.graph.read(words.data(), len); };

  // once, to see whether it ends and how long it takes
  t[library].cut = !ends(t[library].run);
  Cost cost[3];
  for (int i = 0; i < 4; i++) {
    if (t[i].cut) continue;
    stopped = false;
    const double first = t[i].once();
    t[i].cut = stopped;
    t[i].times = unsigned(std::clamp(10 / first, 1.0, 100.0));
    if (i == textbook) cost[i] = plain.cost;
    if (i == parts) cost[i] = closed.cost;
    if (i == lists || t[i].cut) continue;
    std::string fault = i == library && said != 0 ? "refused" : wrong_in(words.data(), len, out[i].data());
    if (!fault.empty()) wrong++, std::printf("WRONG: %s, solver %d: %s\n", name.c_str(), i, fault.c_str());
  }
  for (int sample = 0; sample < 5; sample++)
    for (auto &one : t)
      if (!one.cut) one.sample();

  const double better = std::min(t[textbook].best, t[parts].best);
  std::printf("%-34s %6u %7zu %8.3f %s %s %s ", name.c_str(), n, moves, t[lists].best, ms(t[library]).c_str(), ms(t[textbook]).c_str(), ms(t[parts]).c_str());
  if (std::isinf(t[library].best) || std::isinf(better)) std::printf("     - ");
  else std::printf("%6.2f ", t[library].best / better);
  std::printf("%9llu%s %9llu %7llu\n", (unsigned long long)cost[textbook].attractors, t[textbook].cut ? "+" : " ", (unsigned long long)cost[parts].attractors, (unsigned long long)cost[parts].splits);
  std::fflush(stdout);
  return {n, t[lists].best, t[library].best, t[textbook].best, t[parts].best};
}

std::string cell(double v, const char *form) {
  char s[32];
  if (std::isfinite(v)) std::snprintf(s, sizeof s, form, v);
  else std::snprintf(s, sizeof s, "%8s", "-");
  return s;
}

// The library's attractor of one place, from the words to the answer.
double library_attractor(const Words &words, uint32_t target, uint32_t &took) {
  const uint32_t n = words[0];
  std::vector<uint32_t> out(2 * n), work(65536 + 4 * words.size());
  Timed t;
  t.clear = [&] { std::fill(work.begin(), work.end(), 0x5a5a5a5a); };
  t.run = [&] { endless_attract_to(words.data(), words.size(), target, 0, out.data(), out.size(), work.data(), work.size()); };
  t.times = 10;
  for (int i = 0; i < 5; i++) t.sample();
  took = 0;
  for (uint32_t v = 0; v < n; v++) took += out[2 * v] == 0;
  return t.best;
}

// Place 0 is side 1's and may move to all others, which come one after another: 1 stays, each other goes to the one before it.
Words star(uint32_t n) {
  Words words{n, 1, 0, n - 1};
  for (uint32_t v = 1; v < n; v++) words.push_back(v);
  for (uint32_t v = 1; v < n; v++) words.insert(words.end(), {0, 0, 1, v > 1 ? v - 1 : 1});
  return words;
}

// One attractor of one place: in C++ the loop alone, and with reading the words; in the library from the words to the answer.
void one_attractor() {
  const Words words = random_game(16384, 3, 8, 1);
  std::vector<uint32_t> out(2 * 16384);
  Solver s;
  s.reserve(16384, words.size());
  uint32_t took = 0, library = 0;
  Timed all, loop;
  all.clear = [&] { s.fill(0x5a); };
  all.run = [&] { s.graph.read(words.data(), words.size()), took = s.attractor(0, 0, out.data()); };
  loop.clear = [&] { s.graph.read(words.data(), words.size()); };
  loop.run = [&] { took = s.attractor(0, 0, out.data()); };
  all.times = loop.times = 10;
  for (int i = 0; i < 5; i++) all.sample(), loop.sample();
  const double ours = library_attractor(words, 0, library);
  std::printf("\nOne attractor over 16384 places and 49152 moves, %u places taken: C++ %.3f ms, with reading the words %.3f ms; endless %.3f ms (%u places), ratio %.2f\n", took, loop.best, all.best, ours, library, ours / all.best);
  std::printf("A place with all moves, whose targets come one by one:");
  for (uint32_t n : {4096, 8192, 16384}) {
    const double t = library_attractor(star(n), 1, library);
    std::printf(" %u places %.3f ms (%u taken)%s", n, t, library, n < 16384 ? "," : "\n");
  }
}

// The least numbers of moves to a target, from the words to the answer: the library beside C++.
void one_distance(const char *name, const Words &words, uint32_t target) {
  const uint32_t n = words[0];
  const size_t len = words.size(), moves = len - 1 - 3 * size_t(n);
  std::vector<uint32_t> out[2], work(65536 + 4 * len);
  for (auto &o : out) o.resize(2 * n);
  Solver s;
  s.reserve(n, moves);
  auto filled = [](std::vector<uint32_t> &a) { std::memset(a.data(), 0x5a, 4 * a.size()); };
  uint32_t said = 9, numbered = 0;
  Timed t[2];
  enum { library, cpp };
  t[library].clear = [&] { filled(work), filled(out[library]); };
  t[library].run = [&] { said = endless_distances_to(words.data(), len, target, 0, out[library].data(), out[library].size(), work.data(), work.size()); };
  t[cpp].clear = [&] { s.fill(0x5a), filled(out[cpp]); };
  t[cpp].run = [&] { s.graph.read(words.data(), len), numbered = s.distances(0, target, out[cpp].data()); };
  for (auto &one : t) one.times = unsigned(std::clamp(10 / one.once(), 1.0, 100.0));
  for (int sample = 0; sample < 5; sample++)
    for (auto &one : t) one.sample();

  std::string fault = said != 0 ? "refused" : "";
  uint32_t greatest = 0;
  for (uint32_t v = 0; v < n; v++) {
    if (out[library][2 * v] != out[cpp][2 * v]) fault = "the numbers differ";
    if (out[cpp][2 * v] != Solver::never) greatest = std::max(greatest, out[cpp][2 * v]);
  }
  for (int i = 0; i < 2 && fault.empty(); i++) fault = wrong_distances_in(words.data(), len, target, 0, out[i].data());
  if (!fault.empty()) wrong++, std::printf("WRONG: %s: %s\n", name, fault.c_str());
  std::printf("%-34s %6u %7zu %8u %8u %s %s %6.2f\n", name, n, moves, numbered, greatest, ms(t[library]).c_str(), ms(t[cpp]).c_str(), t[library].best / t[cpp].best);
}

void distances() {
  std::printf("\nLeast numbers of moves to one place:\n%-34s %6s %7s %8s %8s %14s %14s %6s\n", "", "places", "moves", "numbered", "greatest", "endless    ", "C++    ", "ratio");
  one_distance("random, 3 moves", random_game(16384, 3, 8, 1), 0);
  for (uint32_t n : {4096, 8192, 16384}) one_distance("a place with all moves", star(n), 1);
}

// All moves that some winning plan makes: the library, beside C++ by the same rule.
void one_winning_moves(uint32_t n) {
  const Words words = random_game(n, 3, 8, 1);
  const size_t len = words.size(), moves = len - 1 - 3 * size_t(n);
  std::vector<uint32_t> out[2], work(65536 + 9 * len, 0x5a5a5a5a);
  for (auto &o : out) o.assign(n + moves, 0x5a5a5a5a);
  Solver s;
  s.reserve(n, moves);
  const Solve by_cpp = [&](const Words &game, uint32_t *answer) { s.solve_closed(game.data(), game.size(), answer); };
  const Solve by_library = [&](const Words &game, uint32_t *answer) { endless_solve(game.data(), game.size(), answer, 2 * n, work.data(), work.size()); };

  const double start = now();
  const uint32_t said = endless_winning_moves(words.data(), len, out[0].data(), out[0].size(), work.data(), work.size());
  const double library = now() - start;
  const Trials theirs = winning_moves(words, by_cpp, out[1].data());
  const double cpp = now() - start - library;
  std::string fault = said != 0 ? "refused" : out[0] != out[1] ? "the marks differ" : wrong_moves_in(words, by_cpp, out[0].data(), 200, n);
  // with the library's own plans, so by the same games
  const Trials ours = winning_moves(words, by_library, out[1].data());
  if (out[0] != out[1]) fault = "the marks differ";
  if (!fault.empty()) wrong++, std::printf("WRONG: winning moves, %u places: %s\n", n, fault.c_str());
  const auto marked = std::count(out[0].begin() + n, out[0].end(), 1u);
  std::printf("%6u %7zu %7ld %7u %7u %7u %7u %10.1f %7u %10.1f %6.2f\n", n, moves, long(marked), ours.first, ours.avoided, ours.later, ours.games, library, theirs.games, cpp, library / cpp);
  std::fflush(stdout);
}

void all_winning_moves(uint32_t size) {
  std::printf("\nAll moves that some winning plan makes, random games with 3 moves and 8 weights, one run each. Marked by the first plans, since no play comes back, by a\n"
              "later plan; in how many games, with the library's plans and with those of C++\n"
              "%6s %7s %7s %7s %7s %7s %7s %10s %7s %10s %6s\n", "places", "moves", "marked", "first", "avoided", "later", "games", "endless", "games", "C++", "ratio");
  for (uint32_t n : {1024u, 4096u, 16384u})
    if (size == 0 || n == size) one_winning_moves(n);
}

// Five samples, or one where a run takes more than a second.
void some_samples(Timed &t) {
  const double first = t.once();
  if (first > 1000) return void(t.best = t.worst = first);
  t.times = unsigned(std::clamp(10 / first, 1.0, 100.0));
  for (int i = 0; i < 5; i++) t.sample();
}

// n - 1 places of weight 1 in a row, the last of which goes to a place of weight 0 that stays.
Words chain_to_loop(uint32_t n) {
  Words words{n};
  for (uint32_t v = 0; v + 1 < n; v++) words.insert(words.end(), {v % 2, 1, 1, v + 1});
  words.insert(words.end(), {0, 0, 1, n - 1});
  return words;
}

// The smaller game in which alike places are one, and solving through it.
void one_merge(const std::string &name, const Words &words) {
  const uint32_t n = words[0];
  const size_t len = words.size();
  std::vector<uint32_t> to(n), out(2 * n), work(65536 + 6 * len);
  Words smaller(len);
  size_t count = 0;
  uint32_t said[3] = {9, 9, 9};
  Timed t[3];
  enum { merges, solves, solves_merged };
  for (auto &one : t) one.clear = [&] { for (auto *a : {&to, &out, &work, &smaller}) std::memset(a->data(), 0x5a, 4 * a->size()); };
  t[merges].run = [&] { said[merges] = endless_merge(words.data(), len, to.data(), to.size(), smaller.data(), smaller.size(), &count, work.data(), work.size()); };
  t[solves].run = [&] { said[solves] = endless_solve(words.data(), len, out.data(), out.size(), work.data(), work.size()); };
  t[solves_merged].run = [&] { said[solves_merged] = endless_solve_merged(words.data(), len, out.data(), out.size(), work.data(), work.size()); };

  some_samples(t[solves]);
  some_samples(t[solves_merged]);
  std::string fault = wrong_in(words.data(), len, out.data());
  some_samples(t[merges]);
  const double start = now();
  const Parts right = parts(words);
  const double cpp = now() - start;
  smaller.resize(std::min(count, len));
  if (smaller != smaller_game(words, right)) fault = "the smaller game is another";
  if (to != right.of) fault = "the places became others";
  if (said[merges] + said[solves] + said[solves_merged] != 0) fault = "refused";
  if (!fault.empty()) wrong++, std::printf("WRONG: %s: %s\n", name.c_str(), fault.c_str());
  std::printf("%-34s %6u %6u %6u %s %10.3f %s %s\n", name.c_str(), n, right.count, right.rounds, ms(t[merges]).c_str(), cpp, ms(t[solves]).c_str(), ms(t[solves_merged]).c_str());
  std::fflush(stdout);
}

void alike_places() {
  const uint32_t n = 16384;
  std::printf("\nAlike places made one:\n%-34s %6s %6s %6s %14s %10s %14s %14s\n", "", "places", "after", "rounds", "merge    ", "C++ maps", "solve    ", "solve merged ");
  one_merge("random, 3 moves, 8 weights", random_game(n, 3, 8, 1));
  one_merge("copies of a game of 64 places", copies(random_game(64, 3, 8, 1), n / 64, 1));
  for (const Family &f : families())
    if (f.name.find("chain") == 0 || f.name.find("ladder") == 0) one_merge(f.name, f.game(n));
  one_merge("weight 1 in a row, then a loop", chain_to_loop(n));
  one_merge("same ends", same_ends(n, 1));
  one_merge("same ends, parting at once", same_ends_at_once(n, 1));
}

// How long the library takes to look at an answer: as it was found, and with the last place given to the other side.
void one_check(const char *name, const Words &words) {
  const uint32_t n = words[0];
  std::vector<uint32_t> out(2 * n), work(65536 + 4 * words.size());
  if (endless_solve(words.data(), words.size(), out.data(), out.size(), work.data(), work.size()) != 0) wrong++;
  for (const uint32_t expected : {0u, 1u}) {
    if (expected) out[2 * (n - 1)] ^= 1;
    uint32_t said = 9;
    Timed t;
    t.clear = [&] { std::fill(work.begin(), work.end(), 0x5a5a5a5a); };
    t.run = [&] { said = endless_check(words.data(), words.size(), out.data(), out.size(), work.data(), work.size()); };
    t.times = 1;
    for (int i = 0; i < 5; i++) t.sample();
    if (said != expected) wrong++;
    std::printf("  %-40s %s %9.3f ms\n", name, expected ? "wrong" : "right", t.best);
  }
}

void checks() {
  std::printf("\nLooking at an answer, 16384 places:\n");
  one_check("random, 3 moves, 8 weights", random_game(16384, 3, 8, 1));
  one_check("random, 3 moves, 256 weights", random_game(16384, 3, 256, 1));
  one_check("weight 1 in a row, then a loop of weight 0", chain_to_loop(16384));
}

}  // namespace

int main(int argc, char **argv) {
  const std::string part = argc > 1 ? argv[1] : "";
  const uint32_t size = argc > 2 ? uint32_t(std::atoi(argv[2])) : 0;
  std::printf("Milliseconds, best of five and how much longer the longest took. lists: one C++ pass from the words to predecessor lists.\n"
              "ratio: endless to the better of the C++ solvers. The last three columns: attractors of both, and splits into parts.\n\n");
  std::printf("%-34s %6s %7s %8s %14s %14s %14s %6s %10s %9s %7s\n", "family", "places", "moves", "lists", "endless    ", "C++ plain    ", "C++ closed    ", "ratio", "plain ", "closed", "splits");
  std::map<std::string, std::vector<Row>> table;
  std::vector<std::string> names;
  for (const Family &f : families()) {
    if (f.name.find(part) == std::string::npos) continue;
    names.push_back(f.name);
    for (uint32_t n : f.sizes)
      if (size == 0 || n == size) table[f.name].push_back(measure(f.name, f.game(n)));
  }

  std::printf("\nGrowth from the smallest to the largest game of a family that was solved: time is about places to this power\n\n");
  std::printf("%-34s %17s %8s %8s %8s\n", "family", "places", "endless", "plain", "closed");
  for (const auto &name : names) {
    const auto &rows = table[name];
    if (rows.size() < 2) continue;
    double power[3];
    for (int k = 0; k < 3; k++) {
      auto of = [&](const Row &r) { return k == 0 ? r.endless : k == 1 ? r.plain : r.closed; };
      power[k] = INFINITY;
      for (const Row &r : rows)
        if (r.n > rows[0].n && std::isfinite(of(r))) power[k] = std::log(of(r) / of(rows[0])) / std::log(double(r.n) / rows[0].n);
    }
    std::printf("%-34s %7u to %6u %s %s %s\n", name.c_str(), rows.front().n, rows.back().n, cell(power[0], "%8.2f").c_str(), cell(power[1], "%8.2f").c_str(), cell(power[2], "%8.2f").c_str());
  }

  // the games of about 16384 places, and the recursive ladders
  Worst lists, plain, better, slowest, cluster;
  double random = INFINITY;
  for (const auto &name : names)
    for (const Row &r : table[name]) {
      const std::string where = name + ", " + std::to_string(r.n) + " places";
      const bool large = r.n > 16000, rungs = r.n <= 150;
      if (large && name.rfind("random", 0) == 0) {
        lists.take(r.endless / r.lists, where);
        plain.take(r.endless / r.plain, where);
        if (name == "random, 3 moves, 256 weights") random = r.endless;
      }
      if ((large || rungs) && std::isfinite(std::min(r.plain, r.closed))) better.take(r.endless / std::min(r.plain, r.closed), where);
      if (large || r.n <= 100) slowest.take(r.endless, where);
      if (large && name.rfind("clusters", 0) == 0 && name.find("256 weights") != std::string::npos) cluster.take(r.endless, where);
    }
  std::printf("\nThe worst of endless\n\n");
  auto tell = [](double value, const Worst &w, const char *what) {
    if (w.where != "-" && std::isfinite(value)) std::printf("%8.2f %s: %s\n", value, what, w.where.c_str());
  };
  tell(lists.value, lists, "times the lists, on random games");
  tell(plain.value, plain, "times the plain C++ recursion, on random games");
  tell(better.value, better, "times the better C++ solver");
  if (std::isfinite(random)) tell(cluster.value / random, cluster, "times the random game of 3 moves and 256 weights, on clusters with 256 weights");
  tell(slowest.value, slowest, "ms at most, but for recursive ladders of more than 100 places");
  one_attractor();
  distances();
  auto asked = [&](const char *what) { return std::string(what).find(part) != std::string::npos; };
  if (asked("winning moves")) all_winning_moves(size);
  if (asked("alike places")) alike_places();
  checks();
  std::printf("%d wrong answers\n", wrong);
  return wrong != 0;
}
