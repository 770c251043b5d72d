#include "candidates.h"

#include <algorithm>
#include <cstring>

namespace {

// One pair, in the field of the pair count; below it the joint state.
constexpr uint64_t kPair = ranked::Weight::Of(1, 6).low;
constexpr uint64_t kJoint = kPair - 1;

uint64_t SetAt(const uint8_t *bytes) {
  uint64_t set;
  std::memcpy(&set, bytes, sizeof set);
  return set;
}

}  // namespace

void CandidatesImpl::Read(const uint8_t *card, const uint8_t *ranking, const uint8_t *word, int length) {
  machines_ = card[0];
  symbols_ = card[1];
  length_ = length;
  inputs_.assign(1, 0);
  input_at_.clear();
  uint8_t place_of[64] = {};
  uint64_t used = 1;
  for (int i = 0; i < length; i++) {
    if (place_of[word[i]] == 0) {
      place_of[word[i]] = inputs_.size();
      inputs_.push_back(word[i]);
      used |= uint64_t{1} << word[i];
    }
    input_at_.push_back(place_of[word[i]]);
  }

  const uint8_t *parts[6];
  joints_ = 1;
  states_ = 0;
  for (int m = 0; m < machines_; m++) {
    parts[m] = card + (card[2 + 4 * m] | card[3 + 4 * m] << 8);
    joints_ *= parts[m][0];
    states_ += parts[m][0];
  }
  finals_.assign(joints_, 1);
  state_of_.resize(joints_ * machines_);
  known_.assign(joints_, 0);
  insertions_.resize(std::max(insertions_.size(), size_t(joints_)));
  const size_t rows = inputs_.size() * states_;
  steps_.resize(std::max(steps_.size(), rows));
  for (size_t row = 0; row < rows; row++) steps_[row].taken = 0;

  int before = 0;
  int unit = joints_;
  for (int m = 0; m < machines_; m++) {
    const int states = parts[m][0], arcs = parts[m][1];
    unit /= states;
    for (int joint = 0; joint < joints_; joint++) {
      const int state = joint / unit % states;
      state_of_[joint * machines_ + m] = before + state;
      finals_[joint] &= parts[m][2 + state];
    }
    const int place = std::find(ranking, ranking + machines_, m) - ranking;
    const uint8_t *arc = parts[m] + 2 + states;
    for (int a = 0; a < arcs; a++, arc += 20) {
      const Weight weight = Weight::Of(arc[2], place);
      const uint64_t low = weight.low | arc[1] * unit;
      for (uint64_t inputs = SetAt(arc + 4) & used; inputs != 0; inputs &= inputs - 1) {
        const uint64_t outputs = OfKind(arc[3], inputs & -inputs, SetAt(arc + 12));
        Steps &row = steps_[place_of[__builtin_ctzll(inputs)] * states_ + before + arc[0]];
        row.taken |= outputs;
        for (uint64_t left = outputs; left != 0; left &= left - 1) {
          const int output = __builtin_ctzll(left);
          row.high[output] = weight.high;
          row.low[output] = low;
        }
      }
    }
    before += states;
  }
}

// The joint steps with an input, from a joint state.
void CandidatesImpl::AddUp(int input, int joint, Steps *sum) const {
  const Steps *rows[6];
  uint64_t taken = ~uint64_t{0};
  for (int m = 0; m < machines_; m++) {
    rows[m] = &steps_[input * states_ + state_of_[joint * machines_ + m]];
    taken &= rows[m]->taken;
  }
  sum->taken = taken;
  if (taken == 0) return;
  // in blocks that the compiler makes vectors of; what is not taken is added up too, and not looked at
  for (int block = 0; block <= symbols_; block += 4) {
    uint64_t high[4] = {}, low[4] = {kPair, kPair, kPair, kPair};
    for (int m = 0; m < machines_; m++) {
      for (int i = 0; i < 4; i++) high[i] += rows[m]->high[block + i];
      for (int i = 0; i < 4; i++) low[i] += rows[m]->low[block + i];
    }
    std::memcpy(sum->high + block, high, sizeof high);
    std::memcpy(sum->low + block, low, sizeof low);
  }
}

// The cheapest insertion to each other joint state, leading to nodes of position 0.
const std::vector<CandidatesImpl::Arc> &CandidatesImpl::Insertions(int joint) const {
  std::vector<Arc> &list = insertions_[joint];
  if (known_[joint]) return list;
  known_[joint] = 1;
  list.clear();
  Steps sum;
  AddUp(0, joint, &sum);
  uint8_t place_of[128] = {};
  for (uint64_t outputs = sum.taken & ~uint64_t{1}; outputs != 0; outputs &= outputs - 1) {
    const int output = __builtin_ctzll(outputs);
    const int to = sum.low[output] & kJoint;
    const Weight weight = {sum.high[output], sum.low[output] & ~kJoint};
    if (to == joint) continue;
    if (place_of[to] == 0) {
      list.emplace_back(0, output, weight, to);
      place_of[to] = list.size();
    } else if (weight < list[place_of[to] - 1].weight) {
      list[place_of[to] - 1] = Arc(0, output, weight, to);
    }
  }
  return list;
}

CandidatesImpl::Arcs &CandidatesImpl::Expand(StateId node) const {
  size_t place = 0;
  while (place < made_.size() && made_[place]->iterators > 0) ++place;
  if (place == made_.size()) made_.push_back(std::make_unique<Arcs>());
  Arcs &made = *made_[place];

  const int position = node / joints_, joint = node % joints_;
  Arc *next = made.arcs;
  for (const Arc &insertion : Insertions(joint)) {
    *next = insertion;
    next->nextstate += position * joints_;
    ++next;
  }
  if (position < length_) {
    const int input = input_at_[position], symbol = inputs_[input];
    const int base = (position + 1) * joints_;
    Steps sum;
    AddUp(input, joint, &sum);
    for (uint64_t outputs = sum.taken; outputs != 0; outputs &= outputs - 1) {
      const int output = __builtin_ctzll(outputs);
      const Weight weight = {sum.high[output], sum.low[output] & ~kJoint};
      *next++ = Arc(symbol, output, weight, base + int(sum.low[output] & kJoint));
    }
  }
  made.count = next - made.arcs;
  return made;
}

void CandidatesImpl::InitArcIterator(StateId node, fst::ArcIteratorData<Arc> *data) const {
  Arcs &made = Expand(node);
  ++made.iterators;
  data->base = nullptr;
  data->arcs = made.arcs;
  data->narcs = made.count;
  data->ref_count = &made.iterators;
}

size_t CandidatesImpl::NumInputEpsilons(StateId node) const {
  const Arcs &made = Expand(node);
  return std::count_if(made.arcs, made.arcs + made.count, [](const Arc &arc) { return arc.ilabel == 0; });
}

size_t CandidatesImpl::NumOutputEpsilons(StateId node) const {
  const Arcs &made = Expand(node);
  return std::count_if(made.arcs, made.arcs + made.count, [](const Arc &arc) { return arc.olabel == 0; });
}
