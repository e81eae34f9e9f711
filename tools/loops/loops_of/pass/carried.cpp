// What goes from one iteration to the next: computed from the epoch's number, or carried in memory.
#include "loops_of.h"
#include "llvm/Analysis/IVDescriptors.h"
#include "llvm/Analysis/ScalarEvolutionExpressions.h"
#include "llvm/IR/IRBuilder.h"
#include "llvm/IR/IntrinsicInst.h"
#include "llvm/IR/PatternMatch.h"
#include "llvm/Transforms/Utils/BasicBlockUtils.h"
#include "llvm/Transforms/Utils/ScalarEvolutionExpander.h"

using namespace llvm;
using namespace llvm::PatternMatch;

namespace loops_of {
namespace {

constexpr uint64_t LineBytes = 32;  // the longest line of the machine's caches
constexpr unsigned DeepestChoice = 12;

// How a header phi's value in an iteration follows from the epoch's number, or null.
const SCEV *sumOf(OneLoop &One, PHINode &Phi, Value &Epoch) {
  ScalarEvolution &SE = One.SE;
  if (!SE.isSCEVable(Phi.getType())) return nullptr;
  auto *Run = dyn_cast<SCEVAddRecExpr>(SE.getSCEV(&Phi));
  if (!Run || Run->getLoop() != &One.L || !Run->isAffine()) return nullptr;
  const SCEV *Start = Run->getStart(), *Step = Run->getStepRecurrence(SE);
  if (!isSafeToExpand(Start, SE) || !isSafeToExpand(Step, SE)) return nullptr;
  const SCEV *Count = SE.getTruncateOrZeroExtend(SE.getUnknown(&Epoch), SE.getEffectiveSCEVType(Phi.getType()));
  bool Multiplied = !isa<SCEVConstant>(Step);
  One.Told.push_back("computed\t" + variableOf(Phi.getName()) + (Multiplied ? "\tby a multiplication" : ""));
  return SE.getAddExpr(Start, SE.getMulExpr(Count, Step));
}

// Replaces the phis that follow from the epoch's number; answers the others.
SmallVector<PHINode *, 8> computeOthers(OneLoop &One, Instruction &Epoch) {
  SmallVector<PHINode *, 8> All, Carried;
  SmallVector<std::pair<PHINode *, Value *>, 8> Computed;
  for (PHINode &Phi : One.L.getHeader()->phis()) All.push_back(&Phi);
  for (PHINode *Phi : All) {
    const SCEV *Sum = sumOf(One, *Phi, Epoch);
    SCEVExpander Expander(One.SE, One.M.getDataLayout(), "from.epoch");
    if (Sum) Computed.push_back({Phi, Expander.expandCodeFor(Sum, Phi->getType(), Epoch.getNextNode())});
    else Carried.push_back(Phi);
  }
  for (auto &[Phi, Made] : Computed) Phi->replaceAllUsesWith(Made);
  for (auto &[Phi, Made] : Computed) Phi->eraseFromParent();
  return Carried;
}

// A value that is carried in memory: loaded where an iteration first uses it, stored where it is made.
class Carried {
public:
  Carried(OneLoop &One, PHINode &Phi);
  void replacePhi() { Phi->replaceAllUsesWith(Load); }
  void storeNext();
  void erasePhi() { Phi->eraseFromParent(); }
  void sinkLoad();

private:
  OneLoop &One;
  PHINode *Phi;
  GlobalVariable *Slot;
  LoadInst *Load;
  SmallVector<StoreInst *, 4> Stores;

  void tell();
  std::string placeOfChange(Value *V, SmallPtrSetImpl<Value *> &Seen) const;
  bool atLevel(const Instruction *I) const { return One.LI.getLoopFor(I->getParent()) == &One.L; }
  bool leadsTo(BasicBlock *From, BasicBlock *To) const;
  bool mayKeep(Value *V, unsigned Depth = 0) const;
  Instruction *placeFor(Value *V, Instruction *At) const;
  bool mayComeThrough(Value *V, SmallPtrSetImpl<Value *> &Seen) const;
  Instruction *placeUnlessKept(Value *V, Instruction *Place);
  void store(Value *V, Instruction *At);
  void storeOnEdges(PHINode *Join);
  void storeUnder(SelectInst *Choice);
  void storeInBoth(SelectInst *Choice, Instruction *After);
  SmallVector<Instruction *, 8> users() const;
};

Carried::Carried(OneLoop &One, PHINode &Phi) : One(One), Phi(&Phi) {
  tell();
  BasicBlock *Before = One.L.getLoopPreheader();
  Slot = sharedVariable(One.M, Phi.getType(), "carried." + variableOf(Phi.getName()));
  new StoreInst(Phi.getIncomingValueForBlock(Before), Slot, Before->getTerminator());
  IRBuilder<> B(&*One.L.getHeader()->getFirstInsertionPt());
  Load = B.CreateLoad(Phi.getType(), Slot, Phi.getName());
}

void Carried::tell() {
  RecurrenceDescriptor Found;
  bool Sum = RecurrenceDescriptor::isReductionPHI(Phi, &One.L, Found);
  SmallPtrSet<Value *, 16> Seen{Phi};
  std::string Place = placeOfChange(Phi->getIncomingValueForBlock(One.L.getLoopLatch()), Seen);
  One.Told.push_back("carried\t" + variableOf(Phi->getName()) + "\t" + Place + (Sum ? "\ta reduction" : ""));
}

bool hasLine(const DebugLoc &At) { return At && At.getLine(); }

// The line where a value comes from that isn't the one that came in; `?` where none tells it.
std::string Carried::placeOfChange(Value *V, SmallPtrSetImpl<Value *> &Seen) const {
  auto *I = dyn_cast<Instruction>(V);
  if (!I || !One.L.contains(I) || !Seen.insert(V).second) return "?";
  auto *Join = dyn_cast<PHINode>(I);
  // a phi has the line of its variable at best
  if (!Join && hasLine(I->getDebugLoc())) return placeOf(I->getDebugLoc());
  if (!Join && !isa<SelectInst>(I)) return "?";
  for (Value *In : I->operands())
    if (std::string Found = placeOfChange(In, Seen); Found != "?") return Found;
  // the way that leads to a change, where the value has no line of its own
  for (unsigned N = 0; Join && N < Join->getNumIncomingValues(); N++)
    if (!Seen.count(Join->getIncomingValue(N)) && hasLine(Join->getIncomingBlock(N)->getTerminator()->getDebugLoc()))
      return placeOf(Join->getIncomingBlock(N)->getTerminator()->getDebugLoc());
  return "?";
}

// Whether each way from one block to the end of the iteration leads through another.
bool Carried::leadsTo(BasicBlock *From, BasicBlock *To) const {
  if (planted(3)) return true;
  SmallVector<BasicBlock *, 16> Work{From};
  SmallPtrSet<BasicBlock *, 16> Seen;
  while (!Work.empty()) {
    BasicBlock *Block = Work.pop_back_val();
    if (Block == To || !One.L.contains(Block) || !Seen.insert(Block).second) continue;
    if (is_contained(successors(Block), One.L.getHeader())) return false;
    Work.append(succ_begin(Block), succ_end(Block));
  }
  return true;
}

// Whether the value that goes into the next iteration may be the one that came in.
bool Carried::mayKeep(Value *V, unsigned Depth) const {
  if (V == Load) return true;
  auto *I = dyn_cast<Instruction>(V);
  if (!I || !One.L.contains(I) || !atLevel(I) || Depth > DeepestChoice) return false;
  if (auto *Join = dyn_cast<PHINode>(I))
    return Join->getParent() != One.L.getHeader() &&
           any_of(Join->incoming_values(), [&](Value *In) { return mayKeep(In, Depth + 1); });
  auto *Choice = dyn_cast<SelectInst>(I);
  return Choice && (mayKeep(Choice->getTrueValue(), Depth + 1) || mayKeep(Choice->getFalseValue(), Depth + 1));
}

// Where a value is stored: where it is made, or where the ways have come together, at an instruction that it reaches.
Instruction *Carried::placeFor(Value *V, Instruction *At) const {
  auto *I = dyn_cast<Instruction>(V);
  if (!I || !One.L.contains(I) || !atLevel(I) || !One.DT.dominates(I, At) || !leadsTo(I->getParent(), At->getParent()))
    return At;
  // another carried value's load goes further down than here
  if (auto *Other = dyn_cast<LoadInst>(I); Other && Other->getPointerOperand()->getName().startswith("carried."))
    return At;
  return isa<PHINode>(I) ? &*I->getParent()->getFirstInsertionPt() : I->getNextNode();
}

// Whether a value is one of two, of which one is nothing: what a condition becomes that adds.
bool mayBeNothing(Value *V) {
  if (auto *Wide = dyn_cast<CastInst>(V)) return Wide->getSrcTy()->isIntegerTy(1);
  auto *Choice = dyn_cast<SelectInst>(V);
  return Choice && (match(Choice->getTrueValue(), m_Zero()) || match(Choice->getFalseValue(), m_Zero()));
}

// Whether a value that comes out of inner loops, or that a condition adds to, may be the one that came in.
bool Carried::mayComeThrough(Value *V, SmallPtrSetImpl<Value *> &Seen) const {
  if (V == Load) return true;
  auto *I = dyn_cast<Instruction>(V);
  if (!I || !One.L.contains(I) || !Seen.insert(V).second) return false;
  auto IsKept = [&](Value *In) { return mayComeThrough(In, Seen); };
  if (isa<PHINode, SelectInst>(I)) return any_of(I->operands(), IsKept);
  Value *Left, *Right;
  if (!match(I, m_Add(m_Value(Left), m_Value(Right)))) return false;
  return (mayBeNothing(Right) && IsKept(Left)) || (mayBeNothing(Left) && IsKept(Right));
}

// A place for the store to which only another value than that which came in leads, where it isn't seen otherwise which
// of them it is.
Instruction *Carried::placeUnlessKept(Value *V, Instruction *Place) {
  SmallPtrSet<Value *, 16> Seen;
  if (!V->getType()->isIntOrPtrTy() || !mayComeThrough(V, Seen)) return Place;
  IRBuilder<> B(Place);
  Value *Changed = planted(5) ? B.CreateICmpEQ(V, Load) : B.CreateICmpNE(V, Load);
  return SplitBlockAndInsertIfThen(Changed, Place, false, nullptr, &One.DT, &One.LI);
}

// Stores the next iteration's value, where it isn't the one that came in.
void Carried::store(Value *V, Instruction *At) {
  if (V == Load) return;
  auto *I = dyn_cast<Instruction>(V);
  if (mayKeep(V) && leadsTo(I->getParent(), At->getParent())) {
    if (auto *Join = dyn_cast<PHINode>(I)) return storeOnEdges(Join);
    return storeUnder(cast<SelectInst>(I));
  }
  IRBuilder<> B(placeUnlessKept(V, placeFor(V, At)));
  if (I) B.SetCurrentDebugLocation(I->getDebugLoc());
  Stores.push_back(B.CreateStore(V, Slot));
}

void Carried::storeOnEdges(PHINode *Join) {
  SmallVector<std::pair<Value *, BasicBlock *>, 4> Ins;
  SmallPtrSet<BasicBlock *, 4> Seen;
  for (unsigned N = 0; N < Join->getNumIncomingValues(); N++)
    if (Seen.insert(Join->getIncomingBlock(N)).second)
      Ins.push_back({Join->getIncomingValue(N), Join->getIncomingBlock(N)});
  for (auto &[In, From] : Ins) {
    if (In == Load) continue;
    BasicBlock *Edge = From->getSingleSuccessor() ? From : SplitEdge(From, Join->getParent(), &One.DT, &One.LI);
    store(In, Edge->getTerminator());
  }
}

void Carried::storeUnder(SelectInst *Choice) {
  Instruction *After = Choice->getNextNode();
  IRBuilder<> B(After);
  if (Choice->getTrueValue() == Load)
    store(Choice->getFalseValue(),
          SplitBlockAndInsertIfThen(B.CreateNot(Choice->getCondition()), After, false, nullptr, &One.DT, &One.LI));
  else if (Choice->getFalseValue() == Load)
    store(Choice->getTrueValue(),
          SplitBlockAndInsertIfThen(Choice->getCondition(), After, false, nullptr, &One.DT, &One.LI));
  else storeInBoth(Choice, After);
}

void Carried::storeInBoth(SelectInst *Choice, Instruction *After) {
  Instruction *Then = nullptr, *Else = nullptr;
  SplitBlockAndInsertIfThenElse(Choice->getCondition(), After, &Then, &Else);
  for (Instruction *Part : {Then, Else, After})
    if (!One.LI.getLoopFor(Part->getParent())) One.L.addBasicBlockToLoop(Part->getParent(), One.LI);
  One.DT.recalculate(One.F);
  store(Choice->getTrueValue(), Then);
  store(Choice->getFalseValue(), Else);
}

// min and max as comparison and choice, so that they store where they change the value alone.
void spellOut(OneLoop &One, Value *V) {
  auto *Call = dyn_cast<MinMaxIntrinsic>(V);
  if (!Call || !One.L.contains(Call)) return;
  IRBuilder<> B(Call);
  Value *Made = B.CreateSelect(B.CreateICmp(Call->getPredicate(), Call->getLHS(), Call->getRHS()), Call->getLHS(),
                               Call->getRHS());
  Call->replaceAllUsesWith(Made);
  Call->eraseFromParent();
}

void Carried::storeNext() {
  spellOut(One, Phi->getIncomingValueForBlock(One.L.getLoopLatch()));
  BasicBlock *Latch = One.L.getLoopLatch();
  store(Phi->getIncomingValueForBlock(Latch), Latch->getTerminator());
}

// What the load has to come before: its uses, and the stores of the next value.
SmallVector<Instruction *, 8> Carried::users() const {
  SmallVector<Instruction *, 8> Found(Stores.begin(), Stores.end());
  for (Use &U : Load->uses()) {
    auto *Join = dyn_cast<PHINode>(U.getUser());
    Found.push_back(Join ? Join->getIncomingBlock(U)->getTerminator() : cast<Instruction>(U.getUser()));
  }
  return Found;
}

// Moves the load down to its first use, outside inner loops.
void Carried::sinkLoad() {
  SmallVector<Instruction *, 8> Users = users();
  BasicBlock *To = nullptr;
  for (Instruction *User : Users)
    To = To ? One.DT.findNearestCommonDominator(To, User->getParent()) : User->getParent();
  if (!To) return;
  while (One.LI.getLoopFor(To) != &One.L) To = One.DT.getNode(To)->getIDom()->getBlock();
  auto First = find_if(*To, [&](Instruction &I) { return is_contained(Users, &I) || I.isTerminator(); });
  if (&*First != Load) Load->moveBefore(&*First);
}

} // namespace

GlobalVariable *sharedVariable(Module &M, Type *T, const Twine &Name) {
  auto *Made = new GlobalVariable(M, T, false, GlobalValue::ExternalLinkage, Constant::getNullValue(T), Name);
  Made->setAlignment(Align(std::max<uint64_t>(LineBytes, M.getDataLayout().getABITypeAlign(T).value())));
  Made->setSection(OwnSection);
  return Made;
}

Instruction *makeEpoch(OneLoop &One) {
  // in the loop, so that nothing that is made of it is hoisted out
  Instruction *Place =
      planted(2) ? One.L.getLoopPreheader()->getTerminator() : &*One.L.getHeader()->getFirstInsertionPt();
  IRBuilder<> B(Place);
  Type *Number = B.getInt32Ty();
  return B.CreateLoad(Number, UndefValue::get(PointerType::get(Number, 0)), true, "epoch");
}

void carryInMemory(OneLoop &One, Instruction &Epoch) {
  std::vector<Carried> All;
  for (PHINode *Phi : computeOthers(One, Epoch)) All.emplace_back(One, *Phi);
  for (Carried &Each : All) Each.replacePhi();
  for (Carried &Each : All) Each.storeNext();
  for (Carried &Each : All) Each.erasePhi();
  for (Carried &Each : All) Each.sinkLoad();
}

} // namespace loops_of
