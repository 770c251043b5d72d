// Measures the engines in turn on every row and prints one table: medians in microseconds a call. All have to agree. Then
// the verified engines on one row's cards with sets in the words' places. With the word `all` also OpenFst's slowest construction.

#include "openfst.h"
#include "pastaspur.h"
#include "rows.h"

#include <time.h>

#include <algorithm>
#include <cstdio>
#include <cstring>
#include <iterator>
#include <string>
#include <vector>

namespace {

constexpr int kRounds = 21;
constexpr double kLeastRound = 2000;  // microseconds

struct Engine {
  const char *name;
  decltype(&pastaspur_optimize) optimize;
  decltype(&pastaspur_optimize_sets) optimize_sets;
};

// Weights by rank, each 16 times the next one's: as long as no count is above 15 they say what the ranking says.
void WeightsOf(const uint8_t *ranking, size_t machines, uint32_t weights[6]) {
  uint32_t weight = 1000;
  for (size_t rank = machines; rank-- > 0; weight *= 16) weights[ranking[rank]] = weight;
}

uint64_t weights_work[PASTASPUR_WEIGHTS_WORK_NUMBERS];

// The verified engine by those weights.
uint32_t OptimizeWeights(const uint8_t *card, size_t card_len, const uint8_t *ranking, size_t ranking_len,
                         const uint8_t *word, size_t word_len, uint16_t *, size_t, uint8_t *answer, size_t answer_len,
                         pastaspur_evaluation *result) {
  uint32_t weights[6];
  pastaspur_weighing weighing;
  WeightsOf(ranking, ranking_len, weights);
  const uint32_t number =
      pastaspur_optimize_weights(card, card_len, weights, ranking_len, word, word_len, weights_work,
                                 PASTASPUR_WEIGHTS_WORK_NUMBERS, answer, answer_len, &weighing);
  std::copy(weighing.counts, weighing.counts + 6, result->counts);
  result->pairs = weighing.pairs;
  result->word_length = weighing.word_length;
  return number;
}

// The verified engine comes first: the others are compared with it. The first two have calls with sets, the last one is
// measured with the word `all` only.
const Engine kEngines[] = {
    {"verified", pastaspur_optimize, pastaspur_optimize_sets},
    {"verified, cull", pastaspur_cull, pastaspur_cull_sets},
    {"verified, weights", OptimizeWeights, nullptr},
    {"OpenFst, built whole", openfst_whole, nullptr},
    {"OpenFst, delayed", openfst_optimize, nullptr},
    {"reference", reference_optimize, nullptr},
    {"OpenFst, composed", openfst_composed, nullptr},
};

// A case with a set for each symbol of its word.
struct HeardCase : Case {
  std::vector<uint64_t> sets;
};

uint16_t work[PASTASPUR_WORK_NUMBERS];

struct Answer {
  uint32_t number;
  pastaspur_evaluation result;
  uint8_t pairs[PASTASPUR_ANSWER_BYTES];

  size_t length() const { return 2 * result.pairs; }
};

void Ask(const Engine &engine, const Case &c, Answer *answer) {
  answer->number = engine.optimize(c.card.start, c.card.length, c.ranking.start, c.ranking.length, c.word.start,
                                   c.word.length, work, PASTASPUR_WORK_NUMBERS, answer->pairs, sizeof answer->pairs,
                                   &answer->result);
}

void Ask(const Engine &engine, const HeardCase &c, Answer *answer) {
  answer->number = engine.optimize_sets(c.card.start, c.card.length, c.ranking.start, c.ranking.length, c.sets.data(),
                                        c.sets.size(), work, PASTASPUR_WORK_NUMBERS, answer->pairs, sizeof answer->pairs,
                                        &answer->result);
}

bool SameResult(const Answer &a, const Answer &b) {
  return a.number == b.number && std::equal(a.result.counts, a.result.counts + 6, b.result.counts) &&
         a.result.pairs == b.result.pairs && a.result.word_length == b.result.word_length;
}

bool IsSpelled(const std::vector<uint8_t> &spelled, const Case &c) {
  return std::equal(spelled.begin(), spelled.end(), c.word.start, c.word.start + c.word.length);
}

bool IsSpelled(const std::vector<uint8_t> &spelled, const HeardCase &c) {
  return std::equal(spelled.begin(), spelled.end(), c.sets.begin(), c.sets.end(),
                    [](uint8_t symbol, uint64_t set) { return set >> symbol & 1; });
}

// Whether the pairs are a candidate for the word, or for one of the words, with the answer's profile and pair count.
template <class AnyCase>
bool IsCandidate(const Answer &answer, const AnyCase &c) {
  Answer evaluated;
  evaluated.number =
      pastaspur_evaluate(c.card.start, c.card.length, answer.pairs, answer.length(), &evaluated.result);
  std::vector<uint8_t> spelled;
  for (size_t i = 0; i < answer.length(); i += 2) {
    if (answer.pairs[i] != 0) spelled.push_back(answer.pairs[i]);
  }
  return SameResult(evaluated, answer) && IsSpelled(spelled, c);
}

bool SmallCounts(const Answer &answer) {
  return std::all_of(answer.result.counts, answer.result.counts + 6, [](uint16_t count) { return count <= 15; });
}

// The sum of an answer's counts by the weights of the case.
uint64_t Sum(const Answer &answer, const Case &c) {
  uint32_t weights[6];
  WeightsOf(c.ranking.start, c.ranking.length, weights);
  uint64_t sum = 0;
  for (size_t machine = 0; machine < c.ranking.length; machine++) sum += uint64_t{weights[machine]} * answer.result.counts[machine];
  return sum;
}

// Whether all engines accept the case with one profile and pair count, each with a candidate that has them; the cull and
// the second implementation with the verified engine's own. By weights that is asked where no count is above 15, and
// otherwise a candidate whose sum is no larger.
template <class AnyCase>
bool Agree(const std::vector<Engine> &engines, const AnyCase &c) {
  Answer verified, other;
  for (const Engine &engine : engines) {
    Answer &answer = &engine == &engines[0] ? verified : other;
    Ask(engine, c, &answer);
    const bool weights = engine.optimize == OptimizeWeights;
    const bool same = !weights || (SmallCounts(answer) && SmallCounts(verified));
    bool agrees = answer.number == 0 && IsCandidate(answer, c) &&
                  (same ? SameResult(answer, verified) : Sum(answer, c) <= Sum(verified, c));
    if (engine.optimize == pastaspur_cull || engine.optimize == reference_optimize || (weights && same)) {
      agrees = agrees && std::equal(answer.pairs, answer.pairs + answer.length(), verified.pairs);
    }
    if (!agrees) {
      std::fprintf(stderr, "%s does not agree: number %u, counts and pairs", engine.name, answer.number);
      for (const uint16_t count : answer.result.counts) std::fprintf(stderr, " %u", count);
      std::fprintf(stderr, " %u\n", answer.result.pairs);
      return false;
    }
  }
  return true;
}

// The thread's time in microseconds; other programs do not count.
double Now() {
  timespec time;
  clock_gettime(CLOCK_THREAD_CPUTIME_ID, &time);
  return time.tv_sec * 1e6 + time.tv_nsec / 1e3;
}

// The time of so many calls on each case.
template <class AnyCase>
double Time(const Engine &engine, const std::vector<AnyCase> &cases, int calls) {
  Answer answer;
  const double start = Now();
  for (int i = 0; i < calls; i++) {
    for (const AnyCase &c : cases) Ask(engine, c, &answer);
  }
  return Now() - start;
}

// So many calls on each case that a round takes long enough to be measured.
template <class AnyCase>
int CallsARound(const Engine &engine, const std::vector<AnyCase> &cases) {
  int calls = 1;
  while (Time(engine, cases, calls) < kLeastRound) calls *= 2;
  return calls;
}

template <class AnyCase>
std::vector<double> Medians(const std::vector<Engine> &engines, const std::vector<AnyCase> &cases) {
  std::vector<int> calls;
  for (const Engine &engine : engines) calls.push_back(CallsARound(engine, cases));
  std::vector<std::vector<double>> times(engines.size());
  for (int round = 0; round < kRounds; round++) {
    for (size_t e = 0; e < engines.size(); e++) {
      times[e].push_back(Time(engines[e], cases, calls[e]) / calls[e] / cases.size());
    }
  }
  std::vector<double> medians;
  for (std::vector<double> &list : times) {
    std::nth_element(list.begin(), list.begin() + kRounds / 2, list.end());
    medians.push_back(list[kRounds / 2]);
  }
  return medians;
}

// The least and the greatest number of a row.
struct Span {
  int least = 1 << 30;
  int greatest = 0;

  void Add(int number) {
    least = std::min(least, number);
    greatest = std::max(greatest, number);
  }
  std::string Text() const {
    return least == greatest ? std::to_string(least) : std::to_string(least) + " to " + std::to_string(greatest);
  }
};

// K, S, P, n, arcs a machine and the best's pairs, as cells.
std::string Sizes(const std::vector<Case> &cases) {
  Span machines, symbols, joint_states, length, arcs, pairs;
  for (const Case &c : cases) {
    const uint8_t *card = c.card.start;
    int product = 1;
    for (int m = 0; m < card[0]; m++) {
      const uint8_t *part = card + (card[2 + 4 * m] | card[3 + 4 * m] << 8);
      product *= part[0];
      arcs.Add(part[1]);
    }
    Answer answer;
    Ask(kEngines[0], c, &answer);
    machines.Add(card[0]);
    symbols.Add(card[1]);
    joint_states.Add(product);
    length.Add(c.word.length);
    pairs.Add(answer.result.pairs);
  }
  std::string cells;
  for (const Span &span : {machines, symbols, joint_states, length, arcs, pairs}) cells += " " + span.Text() + " |";
  return cells;
}

// The row's cases with sets of that many symbols: the word's, and those that follow it, the first after the last.
std::vector<HeardCase> Heard(size_t row, int count) {
  std::vector<HeardCase> cases;
  for (size_t i = 0; i < row_cases(row); i++) {
    HeardCase c = {row_case(row, i), {}};
    const int symbols = c.card.start[1];
    for (size_t at = 0; at < c.word.length; at++) {
      uint64_t set = 0;
      for (int k = 0; k < count && k < symbols; k++) set |= uint64_t{1} << (1 + (c.word.start[at] - 1 + k) % symbols);
      c.sets.push_back(set);
    }
    cases.push_back(c);
  }
  return cases;
}

// The verified engines on a row's cards with sets of one symbol, of eight, and of all.
bool MeasureHeard(size_t row) {
  const std::vector<Engine> engines(kEngines, kEngines + 2);
  std::printf("\n| row | symbols a set | verified | cull | cull / verified |\n|---|---|---|---|---|\n");
  for (const int count : {1, 8, 63}) {
    const std::vector<HeardCase> cases = Heard(row, count);
    for (const HeardCase &c : cases) {
      if (!Agree(engines, c)) return false;
    }
    const std::vector<double> medians = Medians(engines, cases);
    std::printf("| %s, heard in part | %d | %.1f | %.1f | %.2f |\n", row_name(row), count, medians[0], medians[1], medians[1] / medians[0]);
    std::fflush(stdout);
  }
  return true;
}

}  // namespace

int main(int argc, char **argv) {
  const bool all = argc == 2 && std::strcmp(argv[1], "all") == 0;
  if (argc > 1 && !all) {
    std::fprintf(stderr, "the only word is: all\n");
    return 2;
  }
  const std::vector<Engine> engines(std::begin(kEngines), std::end(kEngines) - (all ? 0 : 1));

  std::printf("| row | K | S | P | n | arcs a machine | pairs of the best |");
  for (const Engine &engine : engines) std::printf(" %s |", engine.name);
  for (size_t e = 1; e < engines.size(); e++) std::printf(" %s / verified |", engines[e].name);
  std::printf("\n|");
  for (size_t column = 0; column < 7 + engines.size() + engines.size() - 1; column++) std::printf("---|");
  std::printf("\n");

  for (size_t row = 0; row < row_count(); row++) {
    std::vector<Case> cases;
    for (size_t i = 0; i < row_cases(row); i++) cases.push_back(row_case(row, i));
    for (const Case &c : cases) {
      if (!Agree(engines, c)) return 1;
    }
    const std::vector<double> medians = Medians(engines, cases);
    std::printf("| %s |%s", row_name(row), Sizes(cases).c_str());
    for (const double median : medians) std::printf(" %.1f |", median);
    for (size_t e = 1; e < engines.size(); e++) std::printf(" %.2f |", medians[e] / medians[0]);
    std::printf("\n");
    std::fflush(stdout);
  }
  const size_t large = 2;
  return MeasureHeard(large) ? 0 : 1;
}
