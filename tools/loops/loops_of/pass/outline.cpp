// The loop's blocks become the function `unsigned loops_body(unsigned epoch)`: 0 goes on, and N > 0 leaves the loop by
// its Nth exit. All that iterations share is in memory: what is carried in a variable each, what comes in in loop.in,
// and what goes out in loop.out. In the loop's place stands a call of loops_drive(), which calls loops_body(0),
// loops_body(1), .. until one leaves.
#include "loops_of.h"
#include "llvm/ADT/SetVector.h"
#include "llvm/IR/DIBuilder.h"
#include "llvm/IR/DebugInfo.h"
#include "llvm/IR/IRBuilder.h"
#include "llvm/IR/InstIterator.h"
#include "llvm/IR/IntrinsicInst.h"
#include "llvm/Transforms/Utils/BasicBlockUtils.h"
#include "llvm/Transforms/Utils/Cloning.h"
#include "llvm/Transforms/Utils/LoopUtils.h"

using namespace llvm;

namespace loops_of {
namespace {

bool isIn(const User *U, const Function *Of) { return cast<Instruction>(U)->getFunction() == Of; }

// --- A function that its own loop may call again ---------------------------------

// Keeps what the frame has at the top of the entry block: elsewhere it would be memory of the stack whose number isn't
// fixed. Answers what comes behind it.
Instruction *raiseFrame(BasicBlock &Entry) {
  auto IsFrame = [](Instruction &I) {
    auto *Alloca = dyn_cast<AllocaInst>(&I);
    return Alloca && (isa<ConstantInt>(Alloca->getArraySize()) || planted(9)) && !planted(8);
  };
  SmallVector<Instruction *, 8> Frame;
  for (Instruction &I : Entry)
    if (IsFrame(I)) Frame.push_back(&I);
  Instruction *First = &*find_if(Entry, [&](Instruction &I) { return !IsFrame(I); });
  for (Instruction *One : Frame) One->moveBefore(First);
  return First;
}

void returnCallOf(Function &Copy, Function &F, Instruction *At) {
  IRBuilder<> B(At);
  SmallVector<Value *, 8> Arguments;
  for (Argument &Each : F.args()) Arguments.push_back(&Each);
  CallInst *Call = B.CreateCall(&Copy, Arguments);
  Call->setAttributes(F.getAttributes());
  if (F.getSubprogram()) Call->setDebugLoc(DILocation::get(F.getContext(), 0, 0, F.getSubprogram()));
  if (F.getReturnType()->isVoidTy()) B.CreateRetVoid();
  else B.CreateRet(Call);
  At->eraseFromParent();
}

// Where the function is entered again from within its loop it runs a copy of itself, since what is shared is there
// once. Answers the flag that says so.
GlobalVariable *divertTo(Function &Copy, OneLoop &One) {
  Type *Flag = Type::getInt32Ty(One.M.getContext());
  GlobalVariable *Inside = sharedVariable(One.M, Flag, "loops_inside");
  BasicBlock *Entry = &One.F.getEntryBlock();
  SplitBlock(Entry, raiseFrame(*Entry), &One.DT, &One.LI);
  IRBuilder<> B(Entry->getTerminator());
  Value *IsInside = B.CreateICmpNE(B.CreateLoad(Flag, Inside), ConstantInt::get(Flag, 0));
  returnCallOf(Copy, One.F,
               SplitBlockAndInsertIfThen(IsInside, Entry->getTerminator(), true, nullptr, &One.DT, &One.LI));
  return Inside;
}

Function *copyOf(Function &F) {
  ValueToValueMapTy Map;
  Function *Copy = CloneFunction(&F, Map);
  Copy->setName(F.getName() + ".whole");
  Copy->setLinkage(GlobalValue::InternalLinkage);
  Copy->setComdat(nullptr);
  return Copy;
}

// Makes this definition of an inline function the one that is linked.
void makeOwn(Function &F) {
  if (F.hasAvailableExternallyLinkage()) F.setLinkage(GlobalValue::InternalLinkage);
  if (F.isWeakForLinker()) F.setLinkage(GlobalValue::ExternalLinkage);
  F.setComdat(nullptr);
}

// --- Arrays of the stack -----------------------------------------------------------

// An array of the function's frame: its addresses, and the marks of where it lives.
struct FrameArray {
  SmallVector<Instruction *, 8> Addresses, Marks;  // the first address is its own; the others are at a fixed distance
  bool UsedInside = false, UsedOutside = false, BeginsInside = false;

  FrameArray(AllocaInst &Alloca, const Function &Body) : Addresses{&Alloca} {
    for (unsigned N = 0; N < Addresses.size(); N++)
      for (User *Each : Addresses[N]->users()) take(*cast<Instruction>(Each), isIn(Each, &Body));
  }

  bool isOwn() const { return UsedInside && !UsedOutside && BeginsInside; }
  // one that lives within an iteration, and whose address others have too
  bool isShared() const { return UsedInside && UsedOutside && BeginsInside; }

private:
  void take(Instruction &I, bool Inside) {
    auto *Mark = dyn_cast<IntrinsicInst>(&I);
    auto *Part = dyn_cast<GetElementPtrInst>(&I);
    if (Mark && Mark->isLifetimeStartOrEnd()) {
      Marks.push_back(Mark);
      BeginsInside |= Inside && Mark->getIntrinsicID() == Intrinsic::lifetime_start;
    } else if ((isa<BitCastInst>(I) || (Part && Part->hasAllConstantIndices())) && (Inside || !planted(7)))
      Addresses.push_back(&I);
    else (Inside ? UsedInside : UsedOutside) = true;
  }
};

// --- The loop ----------------------------------------------------------------------

class Outliner {
public:
  explicit Outliner(OneLoop &One) : One(One), I32(Type::getInt32Ty(One.M.getContext())) {}
  void run(GlobalVariable *Inside);

private:
  OneLoop &One;
  Type *I32;
  BasicBlock *Before = nullptr, *Entry = nullptr;
  Function *Body = nullptr;
  SmallVector<BasicBlock *, 16> Blocks;
  SmallSetVector<BasicBlock *, 4> Exits;
  SmallVector<PHINode *, 8> Outs;
  GlobalVariable *Out = nullptr;

  Function *function(FunctionType *Type, const Twine &Name);
  void findExits();
  void moveBlocks();
  void leaveBy(BasicBlock &Exit, unsigned Number);
  void settleArrays();
  SetVector<Value *> liveIns(const Instruction &Epoch) const;
  void takeIn(const Instruction &Epoch);
  Function *driver();
  void replaceLoop(GlobalVariable *Inside);
  void takeOut();
  void describe();
};

// A function that stays one of its own.
Function *Outliner::function(FunctionType *Type, const Twine &Name) {
  Function *Made = Function::Create(Type, GlobalValue::ExternalLinkage, Name, One.M);
  Made->addFnAttr(Attribute::NoInline);
  Made->addFnAttr(Attribute::NoUnwind);
  for (const char *Each : {"target-cpu", "target-features"})
    if (One.F.hasFnAttribute(Each)) Made->addFnAttr(One.F.getFnAttribute(Each));
  return Made;
}

// The exits, and the values that go out by them: with LCSSA those are the phis of the exits.
void Outliner::findExits() {
  for (BasicBlock *Block : Blocks)
    for (BasicBlock *Next : successors(Block))
      if (!One.L.contains(Next)) Exits.insert(Next);
  SmallVector<Type *, 8> Types;
  for (BasicBlock *Exit : Exits)
    for (PHINode &Phi : Exit->phis()) {
      Types.push_back(Phi.getType());
      Outs.push_back(&Phi);
    }
  if (!Outs.empty()) Out = sharedVariable(One.M, StructType::get(One.M.getContext(), Types), "loop.out");
}

void Outliner::moveBlocks() {
  BasicBlock *Header = One.L.getHeader(), *Latch = One.L.getLoopLatch();
  Body = function(FunctionType::get(I32, {I32}, false), "loops_body");
  Entry = BasicBlock::Create(One.M.getContext(), "entry", Body);
  for (BasicBlock *Block : Blocks) {
    Block->removeFromParent();
    Block->insertInto(Body);
  }
  auto *Again = BasicBlock::Create(One.M.getContext(), "again", Body);
  ReturnInst::Create(One.M.getContext(), ConstantInt::get(I32, 0), Again);
  Latch->getTerminator()->replaceSuccessorWith(Header, Again);
  for (unsigned N = 0; N < Exits.size(); N++) leaveBy(*Exits[N], N + 1);
}

// The ways to an exit return its number, and the leaving epoch alone stores what goes out.
void Outliner::leaveBy(BasicBlock &Exit, unsigned Number) {
  for (BasicBlock *Block : Blocks) {
    if (!is_contained(successors(Block), &Exit)) continue;
    auto *Leave = BasicBlock::Create(One.M.getContext(), "leave", Body);
    Block->getTerminator()->replaceSuccessorWith(&Exit, Leave);
    IRBuilder<> B(Leave);
    for (PHINode &Phi : Exit.phis())
      B.CreateStore(Phi.getIncomingValueForBlock(Block),
                    B.CreateStructGEP(Out->getValueType(), Out, find(Outs, &Phi) - Outs.begin()));
    B.CreateRet(ConstantInt::get(I32, Number));
  }
}

// Arrays that live within an iteration go along. Those that are shared live as long as the function: where the marks
// stand isn't known of both parts together.
void Outliner::settleArrays() {
  SmallVector<AllocaInst *, 16> All;
  for (Instruction &I : instructions(One.F))
    if (auto *Alloca = dyn_cast<AllocaInst>(&I); Alloca && isa<ConstantInt>(Alloca->getArraySize()))
      All.push_back(Alloca);
  for (AllocaInst *Alloca : All) {
    FrameArray Array(*Alloca, *Body);
    if (Array.UsedInside)
      for (Instruction *Mark : Array.Marks) Mark->eraseFromParent();
    if (Array.isShared()) One.Told.push_back("shared\t" + variableOf(Alloca->getName()));
    if (!Array.isOwn()) continue;
    for (DbgDeclareInst *Each : FindDbgDeclareUses(Alloca)) Each->eraseFromParent();
    for (Instruction *Address : Array.Addresses)
      if (Address->getFunction() != Body && (Address == Alloca || !planted(6)))
        Address->moveBefore(*Entry, Entry->end());
    One.Told.push_back("own\t" + variableOf(Alloca->getName()));
  }
}

SetVector<Value *> Outliner::liveIns(const Instruction &Epoch) const {
  SetVector<Value *> Ins;
  for (Instruction &I : instructions(*Body))
    for (Value *Operand : I.operands()) {
      auto *Other = dyn_cast<Instruction>(Operand);
      if ((Other && Other != &Epoch && Other->getFunction() != Body) || isa<Argument>(Operand)) Ins.insert(Operand);
    }
  return Ins;
}

// What the loop reads and doesn't change is stored before it, and each epoch loads it.
void Outliner::takeIn(const Instruction &Epoch) {
  SetVector<Value *> Ins = liveIns(Epoch);
  SmallVector<Type *, 8> Types;
  for (Value *In : Ins) Types.push_back(In->getType());
  StructType *All = StructType::get(One.M.getContext(), Types);
  GlobalVariable *Shared = Ins.empty() ? nullptr : sharedVariable(One.M, All, "loop.in");
  IRBuilder<> Outside(Before->getTerminator()), Inside(Entry);
  for (unsigned N = 0; N < Ins.size(); N++) {
    Outside.CreateStore(Ins[N], Outside.CreateStructGEP(All, Shared, N));
    Value *Load = Inside.CreateLoad(Types[N], Inside.CreateStructGEP(All, Shared, N), Ins[N]->getName());
    Ins[N]->replaceUsesWithIf(Load, [&](Use &U) { return isIn(U.getUser(), Body); });
  }
  Inside.CreateBr(One.L.getHeader());
}

// loops_drive() calls the epochs until one leaves, then loops_left(), which is empty and marks the end; it answers the
// exit's number.
Function *Outliner::driver() {
  LLVMContext &C = One.M.getContext();
  Function *Drive = function(FunctionType::get(I32, false), "loops_drive");
  Function *Left = function(FunctionType::get(Type::getVoidTy(C), false), "loops_left");
  for (Function *Each : {Drive, Left}) Each->addFnAttr(Attribute::OptimizeNone);
  ReturnInst::Create(C, nullptr, BasicBlock::Create(C, "entry", Left));
  auto *Start = BasicBlock::Create(C, "start", Drive), *Next = BasicBlock::Create(C, "next", Drive),
       *End = BasicBlock::Create(C, "end", Drive);
  IRBuilder<> B(Start);
  B.CreateBr(Next);
  B.SetInsertPoint(Next);
  PHINode *Count = B.CreatePHI(I32, 2);
  Value *Exit = B.CreateCall(Body, {Count});
  Count->addIncoming(ConstantInt::get(I32, 0), Start);
  Count->addIncoming(B.CreateAdd(Count, ConstantInt::get(I32, 1)), Next);
  B.CreateCondBr(B.CreateICmpEQ(Exit, ConstantInt::get(I32, 0)), Next, End);
  B.SetInsertPoint(End);
  B.CreateCall(Left);
  B.CreateRet(Exit);
  return Drive;
}

// The loop's place: the driver, and the way on by the exit that it answers.
void Outliner::replaceLoop(GlobalVariable *Inside) {
  Instruction *Old = Before->getTerminator();
  IRBuilder<> B(Old);
  if (Inside) B.CreateStore(ConstantInt::get(I32, 1), Inside);
  CallInst *Exit = B.CreateCall(driver());
  if (Inside) B.CreateStore(ConstantInt::get(I32, 0), Inside);
  if (Exits.empty()) B.CreateUnreachable();
  else {
    SwitchInst *Ways = B.CreateSwitch(Exit, Exits[0], Exits.size());
    for (unsigned N = 1; N < Exits.size(); N++)
      Ways->addCase(cast<ConstantInt>(ConstantInt::get(I32, N + 1)), Exits[N]);
  }
  Old->eraseFromParent();
  if (One.F.getSubprogram())
    Exit->setDebugLoc(One.L.getStartLoc() ? One.L.getStartLoc()
                                          : DebugLoc(DILocation::get(One.M.getContext(), 0, 0, One.F.getSubprogram())));
}

void Outliner::takeOut() {
  for (unsigned N = 0; N < Outs.size(); N++) {
    BasicBlock *Exit = Outs[N]->getParent();
    IRBuilder<> B(Exit, Exit->getFirstInsertionPt());
    Outs[N]->replaceAllUsesWith(
        B.CreateLoad(Outs[N]->getType(), B.CreateStructGEP(Out->getValueType(), Out, N), Outs[N]->getName()));
  }
  for (PHINode *Phi : Outs) Phi->eraseFromParent();
}

// The lines of the new function are those that they were, in the files that they were in.
void Outliner::describe() {
  DISubprogram *Old = One.F.getSubprogram();
  if (!Old) return;
  DIBuilder DIB(One.M, false, Old->getUnit());
  auto *Type = DIB.createSubroutineType(DIB.getOrCreateTypeArray(None));
  auto Flags = DISubprogram::SPFlagDefinition | DISubprogram::SPFlagOptimized;
  DISubprogram *New = DIB.createFunction(Old->getUnit(), "loops_body", "loops_body", Old->getFile(), Old->getLine(),
                                         Type, Old->getLine(), DINode::FlagZero, Flags);
  Body->setSubprogram(New);
  for (Instruction &I : make_early_inc_range(instructions(*Body))) {
    I.setMetadata(LLVMContext::MD_loop, nullptr);
    DebugLoc Was = I.getDebugLoc();
    DIScope *Scope = New;
    if (Was && cast<DIScope>(Was.getScope())->getFile() != New->getFile())
      Scope = DILexicalBlockFile::get(One.M.getContext(), New, cast<DIScope>(Was.getScope())->getFile(), 0);
    if (Was) I.setDebugLoc(DILocation::get(One.M.getContext(), Was.getLine(), Was.getCol(), Scope));
    else if (isa<CallBase>(I)) I.setDebugLoc(DILocation::get(One.M.getContext(), 0, 0, New));
    if (isa<DbgInfoIntrinsic>(I)) I.eraseFromParent();
  }
  DIB.finalizeSubprogram(New);
}

void Outliner::run(GlobalVariable *Inside) {
  if (One.L.getExitingBlock() && One.SE.hasLoopInvariantBackedgeTakenCount(&One.L)) One.Told.push_back("countable");
  Before = One.L.getLoopPreheader();
  Instruction *Epoch = makeEpoch(One);
  carryInMemory(One, *Epoch);
  Blocks.assign(One.L.block_begin(), One.L.block_end());
  findExits();
  moveBlocks();
  settleArrays();
  takeIn(*Epoch);
  Epoch->replaceUsesWithIf(Body->getArg(0), [&](Use &U) { return isIn(U.getUser(), Body); });
  Epoch->replaceAllUsesWith(UndefValue::get(I32));
  Epoch->eraseFromParent();
  replaceLoop(Inside);
  takeOut();
  describe();
  One.Told.push_back("exits\t" + std::to_string(Exits.size()));
}

} // namespace

void outline(OneLoop &One) {
  formLCSSARecursively(One.L, One.DT, &One.LI, &One.SE);
  makeOwn(One.F);
  bool Again = mayComeAgain(One.F, One.L) && !planted(4);
  GlobalVariable *Inside = Again ? divertTo(*copyOf(One.F), One) : nullptr;
  Outliner(One).run(Inside);
}

} // namespace loops_of
