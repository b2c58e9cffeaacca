// The boundary of five of the library's calls under many lists of words, most of them no games.
//   fuzz [COUNT [SEED]]
// Each slice ends where a page begins that may not be touched.
#include <signal.h>
#include <sys/mman.h>
#include <unistd.h>

#include <algorithm>
#include <cstdio>
#include <cstdlib>
#include <cstring>
#include <string>
#include <vector>

#include "check.hpp"
#include "endless.h"
#include "families.hpp"
#include "moves.hpp"
#include "parts.hpp"
#include "solvers.hpp"

namespace {

enum { done, out_full, no_game, few, no_place };
const char *const names[] = {"done", "out full", "no game", "few", "no place"};
const uint32_t longest = 64;
const size_t most_out = 4 * longest, most_work = 65536 + 9 * longest + 1;

// How many places has this game? 0: it is no game. As the format says it, and nothing else.
uint32_t places_of(const Words &w) {
  if (w.empty() || w[0] < 1 || w[0] > 16384) return 0;
  const uint64_t n = w[0];
  uint64_t at = 1;
  for (uint64_t v = 0; v < n; v++) {
    if (at + 3 > w.size()) return 0;
    const uint64_t whose = w[at], weight = w[at + 1], moves = w[at + 2];
    at += 3;
    if (whose > 1 || weight > 255 || moves < 1 || at + moves > w.size()) return 0;
    for (uint64_t i = 0; i < moves; i++)
      if (w[at + i] >= n) return 0;
    at += moves;
  }
  return at == w.size() ? uint32_t(n) : 0;
}

Words valid(Random &r) {
  for (;;) {
    Made g;
    const uint32_t n = 1 + r.below(1 + r.below(15)), weights = r.below(2) ? 256 : 1 + r.below(6), most = 1 + r.below(r.below(8) ? 4 : 50);
    for (uint32_t v = 0; v < n; v++) {
      Made::Place p{r.below(2), r.below(weights), {}};
      for (uint32_t i = 1 + r.below(most); i > 0; i--) p.moves.push_back(r.below(n));
      g.places.push_back(p);
    }
    Words w = g.words();
    if (w.size() <= longest) return w;
  }
}

uint32_t any_word(Random &r) {
  static const uint32_t edges[] = {0, 1, 2, 3, 255, 256, 257, 16383, 16384, 16385, 65535, 65536, 0x3fffffff, 0x40000000, 0x7fffffff, 0x80000000, 0xfffffffc, 0xfffffffd, 0xfffffffe, 0xffffffff};
  switch (r.below(4)) {
    case 0: return edges[r.below(sizeof edges / sizeof edges[0])];
    case 1: return uint32_t(r.next());
    default: return r.below(8);
  }
}

Words changed(Random &r) {
  Words w = valid(r);
  uint32_t &x = w[r.below(uint32_t(w.size()))];
  const uint32_t was = x;
  while (x == was) x = r.below(3) == 0 ? was + 1 - 2 * r.below(2) : any_word(r);
  return w;
}

Words at_random(Random &r) {
  Words w(r.below(longest + 1));
  const bool tame = r.below(2);
  for (uint32_t &x : w) x = tame ? r.below(3) : any_word(r);
  if (tame && !w.empty()) w[0] = r.below(6);
  return w;
}

// Memory with a page behind it that may not be touched.
struct Fenced {
  uint32_t *end;
  explicit Fenced(size_t words) {
    const size_t page = size_t(sysconf(_SC_PAGESIZE)), size = (4 * words + page - 1) / page * page;
    char *base = static_cast<char *>(mmap(nullptr, size + page, PROT_READ | PROT_WRITE, MAP_PRIVATE | MAP_ANONYMOUS, -1, 0));
    if (base == MAP_FAILED || mprotect(base + size, page, PROT_NONE) != 0) std::abort();
    end = reinterpret_cast<uint32_t *>(base + size);
  }
};

volatile unsigned long current;  // the list at hand, for the report of a fault
void fault(int) {
  char s[80];
  const int len = std::snprintf(s, sizeof s, "list %lu: memory that was not lent was touched\n", current);
  if (write(1, s, size_t(len)) < 0) _exit(3);
  _exit(2);
}

// The slices that are lent, all of which end where a page begins that may not be touched.
struct Lent {
  Fenced words{longest}, out{most_out}, smaller{2 * longest}, work{most_work};
};

// What is wrong with a call on these words that should answer `should`; "" where nothing is. It is called with
// words, out and work, and if it is done, it may write the first `written` words of out, at which `check` looks.
template <class Call, class Check>
std::string wrong_with(const Words &w, size_t written, size_t out_len, size_t work_len, unsigned should, const Lent &lent, Random &r, Call call, Check check) {
  uint32_t *words = lent.words.end - w.size(), *out = lent.out.end - out_len, *work = lent.work.end - work_len;
  if (!w.empty()) std::memcpy(words, w.data(), 4 * w.size());
  for (size_t k = 0; k < most_out; k++) lent.out.end[-ptrdiff_t(k) - 1] = uint32_t(r.next());
  const std::vector<uint32_t> before(lent.out.end - most_out, lent.out.end);  // also what stands before out

  const uint32_t said = call(words, out, work);

  if (said != should) return "answered " + std::to_string(said) + ", should be " + names[should];
  const uint32_t *old = before.data() + most_out - out_len;
  for (size_t k = said == done ? written : 0; k < out_len; k++)
    if (out[k] != old[k]) return "word " + std::to_string(k) + " of out was written";
  if (std::memcmp(before.data(), lent.out.end - most_out, 4 * (most_out - out_len)) != 0) return "words before out were written";
  if (!w.empty() && std::memcmp(words, w.data(), 4 * w.size()) != 0) return "the words were written";
  return said == done ? check(out) : "";
}

}  // namespace

int main(int argc, char **argv) {
  const unsigned long count = argc > 1 ? std::strtoul(argv[1], nullptr, 10) : 1'000'000;
  const uint64_t seed = argc > 2 ? std::strtoull(argv[2], nullptr, 10) : 1;
  Random r(seed), chosen(~seed);  // the lists; targets and sides
  signal(SIGSEGV, fault);
  signal(SIGBUS, fault);
  const Lent lent;
  for (size_t i = 1; i <= most_work; i++) lent.work.end[-ptrdiff_t(i)] = uint32_t(r.next());

  enum { solve, distances, moves, merged, merge, all };
  static const char *const calls[] = {"solve", "distances_to", "moves", "merged", "merge"};
  static const uint32_t lent_a_word[] = {4, 4, 9, 6, 4};
  static const char *const kinds[] = {"valid", "one word changed", "at random"};
  unsigned long answers[all][3][5] = {}, wrong = 0, games[3] = {};
  Solver solver;
  solver.reserve(longest, longest);
  const Solve closed = [&](const Words &game, uint32_t *answer) { solver.solve_closed(game.data(), game.size(), answer); };
  for (unsigned long i = 0; i < count; i++) {
    current = i;
    const unsigned kind = i % 3;
    const Words w = kind == 0 ? valid(r) : kind == 1 ? changed(r) : at_random(r);
    const size_t len = w.size();
    const uint32_t n = places_of(w);
    games[kind] += n > 0;

    // work and out at, below and above what is needed: all nine pairs in turn
    const unsigned which = unsigned(i / 9 % 3);
    const size_t more = which == 2 ? 1 + r.below(8) : 0;
    auto lent_out = [&](size_t need) { return which == 1 ? need - (need > 0) : need + more; };
    const size_t some = n > 0 ? n : w.empty() ? 0 : w[0] % longest;  // places, or as many as no game might have
    size_t written[all], out_len[all], work_len[all];
    for (unsigned call = 0; call < all; call++) {
      written[call] = call == moves ? (n > 0 ? len - 1 - 2 * n : some) : call == merge ? some : 2 * some;
      out_len[call] = lent_out(written[call]);
      work_len[call] = 65536 + lent_a_word[call] * len - 1 + i / 3 % 3;
    }
    // a place, the first number that is none, or any word; side 0 or 1, or any word, which means side 0
    const uint32_t target = chosen.below(4) ? chosen.below(n + 1) : any_word(chosen), word = chosen.below(4) ? chosen.below(2) : any_word(chosen), side = word == 1;
    // for the smaller game one word too few where `to` has as many as it must
    const size_t smaller_len = which == 1 ? len + more : len - (chosen.below(8) == 0 && len > 0) + chosen.below(3);
    uint32_t *smaller = lent.smaller.end - smaller_len;
    size_t told = SIZE_MAX;

    std::string bad[all];
    unsigned should[all];
    for (unsigned call = 0; call < all; call++) {
      const bool room = out_len[call] >= written[call] && (call != merge || smaller_len >= len);
      should[call] = i / 3 % 3 == 0 ? few : n == 0 ? no_game : call == distances && target >= n ? no_place : room ? done : out_full;
    }
    auto looked_at = [&](unsigned call, Random &filling, auto run, auto check) {
      bad[call] = wrong_with(w, written[call], out_len[call], work_len[call], should[call], lent, filling, run, check);
    };
    auto answer = [&](const uint32_t *out) { return wrong_in(w.data(), len, out); };
    looked_at(
        solve, r,
        [&](const uint32_t *words, uint32_t *out, uint32_t *work) { return endless_solve(words, len, out, out_len[solve], work, work_len[solve]); },
        answer);
    looked_at(
        distances, chosen,
        [&](const uint32_t *words, uint32_t *out, uint32_t *work) { return endless_distances_to(words, len, target, word, out, out_len[distances], work, work_len[distances]); },
        [&](const uint32_t *out) { return wrong_distances_in(w.data(), len, target, side, out); });
    looked_at(
        moves, chosen,
        [&](const uint32_t *words, uint32_t *out, uint32_t *work) { return endless_winning_moves(words, len, out, out_len[moves], work, work_len[moves]); },
        [&](const uint32_t *out) { return wrong_moves_in(w, closed, out, longest, i); });
    looked_at(
        merged, chosen,
        [&](const uint32_t *words, uint32_t *out, uint32_t *work) { return endless_solve_merged(words, len, out, out_len[merged], work, work_len[merged]); },
        answer);
    for (size_t k = 0; k < smaller_len; k++) smaller[k] = uint32_t(chosen.next());
    const Words before(smaller, smaller + smaller_len);
    looked_at(
        merge, chosen,
        [&](const uint32_t *words, uint32_t *to, uint32_t *work) { return endless_merge(words, len, to, out_len[merge], smaller, smaller_len, &told, work, work_len[merge]); },
        [&](const uint32_t *to) -> std::string {
          const Parts right = parts(w);
          if (!std::equal(right.of.begin(), right.of.end(), to)) return "the places became others";
          const Words game = smaller_game(w, right);
          return told == game.size() && std::equal(game.begin(), game.end(), smaller) ? "" : "the smaller game is another";
        });
    const size_t of_game = should[merge] == done ? std::min(told, smaller_len) : 0;
    if (bad[merge].empty() && should[merge] != done && told != SIZE_MAX) bad[merge] = "the length was written";
    if (bad[merge].empty() && !std::equal(before.begin() + long(of_game), before.end(), smaller + of_game)) bad[merge] = "words behind the smaller game were written";
    for (unsigned call = 0; call < all; call++) {
      answers[call][kind][should[call]]++;
      if (bad[call].empty() || wrong++ >= 20) continue;
      std::printf("list %lu (%s), %s, target %u, side %u, out %zu, smaller %zu, work %zu: %s:", i, kinds[kind], calls[call], target, word, out_len[call], smaller_len, work_len[call], bad[call].c_str());
      for (uint32_t x : w) std::printf(" %u", x);
      std::printf("\n");
    }
  }
  std::printf("%-31s %9s %9s %9s %9s %9s %9s\n", "lists of words", "games", names[0], names[1], names[2], names[3], names[4]);
  for (unsigned call = 0; call < all; call++)
    for (int k = 0; k < 3; k++) {
      std::printf("%-12s %-18s %9lu", calls[call], kinds[k], games[k]);
      for (unsigned long number : answers[call][k]) std::printf(" %9lu", number);
      std::printf("\n");
    }
  std::printf("%lu lists, %lu wrong\n", count, wrong);
  return wrong != 0;
}
