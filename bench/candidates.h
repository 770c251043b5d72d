// Every candidate for a word, as a delayed Fst of OpenFst: the product of a card's machines over the word.
#pragma once

#include "ranked_weight.h"

#include <fst/fst.h>

#include <cstddef>
#include <cstdint>
#include <memory>
#include <utility>
#include <vector>

// Of an arc's outputs those that make a pair of the arc's kind with an input, given as the set of it.
inline uint64_t OfKind(uint8_t kind, uint64_t input, uint64_t outputs) {
  return kind == 0 ? outputs : kind == 1 ? outputs & input : outputs & ~input;
}

// A state is a node, input position * P + joint state. The arcs of a node are made when the library asks for them.
class CandidatesImpl : public fst::internal::FstImpl<ranked::Arc> {
 public:
  using Arc = ranked::Arc;
  using StateId = Arc::StateId;
  using Weight = ranked::Weight;

  CandidatesImpl() { SetType("candidates"); }

  // Reads the card's machines. The memory of the card and word before is used again.
  void Read(const uint8_t *card, const uint8_t *ranking, const uint8_t *word, int length);

  StateId Start() const { return 0; }
  Weight Final(StateId node) const {
    const StateId joint = node - length_ * joints_;
    return joint >= 0 && finals_[joint] ? Weight::One() : Weight::Zero();
  }
  StateId NumStates() const { return (length_ + 1) * joints_; }
  size_t NumArcs(StateId node) const { return Expand(node).count; }
  size_t NumInputEpsilons(StateId node) const;
  size_t NumOutputEpsilons(StateId node) const;
  void InitArcIterator(StateId node, fst::ArcIteratorData<Arc> *data) const;

 private:
  // What a machine does in a state, or all machines in theirs, with the outputs that are taken. `high` and `low` are as in a
  // weight, with the joint state led to in the lowest 16 bits of `low`.
  struct Steps {
    uint64_t taken;
    uint64_t high[64];
    uint64_t low[64];
  };

  // At most 63 insertions and 64 pairs with the word's symbol. The place is free when no iterator is left on it.
  struct Arcs {
    int iterators = 0;
    size_t count = 0;
    Arc arcs[127];
  };

  void AddUp(int input, int joint, Steps *sum) const;
  const std::vector<Arc> &Insertions(int joint) const;
  Arcs &Expand(StateId node) const;

  int machines_ = 0;
  int symbols_ = 0;
  int length_ = 0;
  int joints_ = 1;                   // P
  int states_ = 0;                   // of all machines
  std::vector<char> finals_;         // by joint state
  std::vector<uint8_t> state_of_;    // by joint state and machine: the state, counted through all machines
  std::vector<uint8_t> inputs_;      // the empty symbol, then the word's symbols, each once
  std::vector<uint8_t> input_at_;    // by position, a place in inputs_
  std::vector<Steps> steps_;         // by place in inputs_ and state
  mutable std::vector<char> known_;  // by joint state, whether its insertions are known
  mutable std::vector<std::vector<Arc>> insertions_;
  mutable std::vector<std::unique_ptr<Arcs>> made_;
};

class Candidates : public fst::ImplToFst<CandidatesImpl> {
 public:
  explicit Candidates(std::shared_ptr<CandidatesImpl> impl) : ImplToFst(std::move(impl)) {}
  Candidates *Copy(bool = false) const override { return new Candidates(*this); }
  void InitStateIterator(fst::StateIteratorData<Arc> *data) const override {
    data->base = nullptr;
    data->nstates = GetImpl()->NumStates();
  }
  void InitArcIterator(StateId node, fst::ArcIteratorData<Arc> *data) const override {
    GetImpl()->InitArcIterator(node, data);
  }
};
