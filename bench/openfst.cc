#include "openfst.h"

#include "candidates.h"
#include "ranked_weight.h"

#include <fst/arcsort.h>
#include <fst/compose.h>
#include <fst/queue.h>
#include <fst/shortest-path.h>
#include <fst/vector-fst.h>

#include <algorithm>
#include <cstring>
#include <memory>
#include <vector>

namespace {

using ranked::Arc;
using ranked::Weight;
using StateId = Arc::StateId;

// The best path, by the library's search with the shortest-first queue, which stops at the first final state.
fst::VectorFst<Arc> BestPath(const fst::Fst<Arc> &graph) {
  using Compare = fst::internal::StateWeightCompare<StateId, ranked::Less>;
  using Queue = fst::ShortestFirstQueue<StateId, Compare>;
  using Filter = fst::AnyArcFilter<Arc>;
  static std::vector<Weight> distance;
  const ranked::Less less;
  Queue queue(Compare(distance, less));
  fst::ShortestPathOptions<Arc, Queue, Filter> options(&queue, Filter());
  options.first_path = true;
  fst::VectorFst<Arc> path;
  fst::ShortestPath(graph, &path, &distance, options);
  return path;
}

// Gives profile, pair count, word length and pairs of a path.
template <class In, class Out>
uint32_t Give(const fst::VectorFst<Arc> &path, const uint8_t *ranking, size_t machines, size_t length, uint8_t *answer,
              size_t room, pastaspur_evaluation *result, In in, Out out) {
  *result = {};
  if (path.Start() == fst::kNoStateId) return 10;
  Weight cost = Weight::One();
  size_t pairs = 0;
  for (StateId state = path.Start(); path.NumArcs(state) > 0; ++pairs) {
    if (2 * pairs + 2 > room) return 12;
    const Arc &arc = fst::ArcIterator<fst::VectorFst<Arc>>(path, state).Value();
    cost = Times(cost, arc.weight);
    answer[2 * pairs] = in(arc);
    answer[2 * pairs + 1] = out(arc);
    state = arc.nextstate;
  }
  for (size_t place = 0; place < machines; place++) result->counts[ranking[place]] = cost.Count(place);
  result->pairs = cost.Count(6);
  result->word_length = length;
  return 0;
}

uint8_t In(const Arc &arc) { return arc.ilabel; }
uint8_t Out(const Arc &arc) { return arc.olabel; }

// A pair as one label; none has 0, the label of the library's epsilon.
int Label(int in, int out) { return 64 * in + out; }
uint8_t LabelIn(const Arc &arc) { return arc.ilabel / 64; }
uint8_t LabelOut(const Arc &arc) { return arc.ilabel % 64; }

// The word: insertions at every position, and the pairs of its symbols in turn. Each pair counts once.
fst::VectorFst<Arc> WordAcceptor(const uint8_t *word, int length, int symbols) {
  fst::VectorFst<Arc> acceptor;
  acceptor.AddStates(length + 1);
  acceptor.SetStart(0);
  acceptor.SetFinal(length, Weight::One());
  const Weight pair = Weight::Of(1, 6);
  for (int i = 0; i <= length; i++) {
    acceptor.ReserveArcs(i, 2 * symbols + 1);
    for (int out = 1; out <= symbols; out++) acceptor.AddArc(i, Arc(Label(0, out), Label(0, out), pair, i));
    for (int out = 0; i < length && out <= symbols; out++) {
      acceptor.AddArc(i, Arc(Label(word[i], out), Label(word[i], out), pair, i + 1));
    }
  }
  return acceptor;
}

// A machine, with the pairs that the word can have.
fst::VectorFst<Arc> MachineAcceptor(const uint8_t *part, int place, uint64_t used) {
  const int states = part[0], arcs = part[1];
  fst::VectorFst<Arc> acceptor;
  acceptor.AddStates(states);
  acceptor.SetStart(0);
  for (int state = 0; state < states; state++) {
    if (part[2 + state]) acceptor.SetFinal(state, Weight::One());
  }
  const uint8_t *arc = part + 2 + states;
  for (int a = 0; a < arcs; a++, arc += 20) {
    uint64_t sets[2];
    std::memcpy(sets, arc + 4, sizeof sets);
    const Weight marks = Weight::Of(arc[2], place);
    for (uint64_t inputs = sets[0] & used; inputs != 0; inputs &= inputs - 1) {
      for (uint64_t outputs = OfKind(arc[3], inputs & -inputs, sets[1]); outputs != 0; outputs &= outputs - 1) {
        const int label = Label(__builtin_ctzll(inputs), __builtin_ctzll(outputs));
        if (label != 0) acceptor.AddArc(arc[0], Arc(label, label, marks, arc[1]));
      }
    }
  }
  fst::ArcSort(&acceptor, fst::ILabelCompare<Arc>());
  return acceptor;
}

}  // namespace

uint32_t openfst_optimize(const uint8_t *card, size_t, const uint8_t *ranking, size_t ranking_len, const uint8_t *word,
                          size_t word_len, uint16_t *, size_t, uint8_t *answer, size_t answer_len, pastaspur_evaluation *result) {
  static const auto candidates = std::make_shared<CandidatesImpl>();
  candidates->Read(card, ranking, word, word_len);
  return Give(BestPath(Candidates(candidates)), ranking, ranking_len, word_len, answer, answer_len, result, In, Out);
}

uint32_t openfst_whole(const uint8_t *card, size_t, const uint8_t *ranking, size_t ranking_len, const uint8_t *word,
                       size_t word_len, uint16_t *, size_t, uint8_t *answer, size_t answer_len, pastaspur_evaluation *result) {
  static const auto candidates = std::make_shared<CandidatesImpl>();
  candidates->Read(card, ranking, word, word_len);
  const fst::VectorFst<Arc> whole{Candidates(candidates)};
  return Give(BestPath(whole), ranking, ranking_len, word_len, answer, answer_len, result, In, Out);
}

uint32_t openfst_composed(const uint8_t *card, size_t, const uint8_t *ranking, size_t ranking_len, const uint8_t *word,
                          size_t word_len, uint16_t *, size_t, uint8_t *answer, size_t answer_len, pastaspur_evaluation *result) {
  uint64_t used = 1;
  for (size_t i = 0; i < word_len; i++) used |= uint64_t{1} << word[i];
  std::unique_ptr<fst::Fst<Arc>> all(new fst::VectorFst<Arc>(WordAcceptor(word, word_len, card[1])));
  const fst::CacheOptions no_collection(false);
  for (int m = 0; m < card[0]; m++) {
    const int place = std::find(ranking, ranking + ranking_len, m) - ranking;
    const auto machine = MachineAcceptor(card + (card[2 + 4 * m] | card[3 + 4 * m] << 8), place, used);
    all.reset(new fst::ComposeFst<Arc>(*all, machine, no_collection));
  }
  return Give(BestPath(*all), ranking, ranking_len, word_len, answer, answer_len, result, LabelIn, LabelOut);
}
