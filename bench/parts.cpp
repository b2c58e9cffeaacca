#include "parts.hpp"

#include <algorithm>
#include <map>

namespace {

std::vector<Made::Place> places_of(const Words &words) {
  std::vector<Made::Place> places;
  for (size_t at = 1; at < words.size(); at += 3 + words[at + 2])
    places.push_back({words[at], words[at + 1], {words.begin() + long(at) + 3, words.begin() + long(at) + 3 + words[at + 2]}});
  return places;
}

// The parts that a place may move into, each once and in ascending order.
std::vector<uint32_t> led_into(const Made::Place &place, const std::vector<uint32_t> &part) {
  std::vector<uint32_t> into;
  for (uint32_t m : place.moves) into.push_back(part[m]);
  std::sort(into.begin(), into.end());
  into.erase(std::unique(into.begin(), into.end()), into.end());
  return into;
}

// Side, weight and part, and then the parts that it may move into.
std::vector<uint32_t> signature(const Made::Place &place, uint32_t own, const std::vector<uint32_t> &part) {
  std::vector<uint32_t> s = led_into(place, part);
  s.insert(s.end(), {own, place.weight, place.whose});
  return s;
}

Parts by_first_place(const std::vector<uint32_t> &part, uint32_t rounds) {
  std::map<uint32_t, uint32_t> number;
  Parts parts{0, {}, rounds};
  for (uint32_t p : part) {
    const auto [at, is_new] = number.try_emplace(p, parts.count);
    parts.count += is_new;
    parts.of.push_back(at->second);
  }
  return parts;
}

}  // namespace

Parts parts_in_rounds(const Words &words) {
  const auto places = places_of(words);
  std::vector<uint32_t> part(places.size(), 0);
  size_t count = 1;
  for (uint32_t rounds = 0;; rounds++) {
    std::map<std::vector<uint32_t>, uint32_t> numbers;
    std::vector<uint32_t> next;
    for (size_t v = 0; v < places.size(); v++)
      next.push_back(numbers.try_emplace(signature(places[v], part[v], part), uint32_t(numbers.size())).first->second);
    if (numbers.size() == count) return by_first_place(part, rounds);
    count = numbers.size();
    part = next;
  }
}

// The places of a part of which none is looked at keep its number, and were of one signature before. A place that is
// looked at has a move into a part with a new number, and so is apart from these.
Parts parts(const Words &words) {
  const auto places = places_of(words);
  const uint32_t n = uint32_t(places.size());
  std::vector<std::vector<uint32_t>> from(n);
  for (uint32_t v = 0; v < n; v++)
    for (uint32_t m : places[v].moves) from[m].push_back(v);
  std::vector<uint32_t> part(n, 0), size{n}, look(n), changed, seen(n, 0);
  uint32_t rounds = 0;
  for (uint32_t v = 0; v < n; v++) look[v] = v;
  for (uint32_t round = 1; !look.empty(); round++) {
    std::map<uint32_t, std::map<std::vector<uint32_t>, std::vector<uint32_t>>> pieces;
    for (uint32_t v : look) pieces[part[v]][signature(places[v], 0, part)].push_back(v);
    changed.clear();
    for (const auto &[p, of] : pieces) {
      size_t looked_at = 0, greatest = 0;
      for (const auto &piece : of) looked_at += piece.second.size(), greatest = std::max(greatest, piece.second.size());
      bool keeps = looked_at == size[p];  // then the first of the greatest keeps the number
      for (const auto &piece : of) {
        if (keeps && piece.second.size() == greatest) {
          keeps = false;
          continue;
        }
        size[p] -= uint32_t(piece.second.size());
        for (uint32_t v : piece.second) part[v] = uint32_t(size.size()), changed.push_back(v);
        size.push_back(uint32_t(piece.second.size()));
      }
    }
    rounds += !changed.empty();
    look.clear();
    for (uint32_t v : changed)
      for (uint32_t u : from[v])
        if (seen[u] != round) seen[u] = round, look.push_back(u);
  }
  return by_first_place(part, rounds);
}

Words smaller_game(const Words &words, const Parts &parts) {
  const auto places = places_of(words);
  Made g;
  for (size_t v = 0; v < places.size(); v++)
    if (parts.of[v] == g.places.size()) g.places.push_back({places[v].whose, places[v].weight, led_into(places[v], parts.of)});
  return g.words();
}
