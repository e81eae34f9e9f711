// Why a loop can't be outlined: what it has that isn't an iteration's own, or can't be parted from its function.
#include "loops_of.h"
#include "llvm/IR/InlineAsm.h"
#include "llvm/IR/IntrinsicInst.h"

using namespace llvm;

namespace loops_of {
namespace {

using Reason = std::optional<const char *>;

bool looksAtFrame(Intrinsic::ID ID) {
  switch (ID) {
  case Intrinsic::stacksave:
  case Intrinsic::stackrestore:
  case Intrinsic::vastart:
  case Intrinsic::vaend:
  case Intrinsic::vacopy:
  case Intrinsic::returnaddress:
  case Intrinsic::frameaddress:
    return true;
  default:
    return false;
  }
}

Reason refusalOfCall(const CallBase &Call) {
  if (Call.hasFnAttr(Attribute::ReturnsTwice)) return "calls a function that returns twice (setjmp)";
  auto *Asm = dyn_cast<InlineAsm>(Call.getCalledOperand());
  if (Asm && !Asm->getAsmString().empty()) return "has assembly, which may be another machine's";
  if (looksAtFrame(Call.getIntrinsicID()))
    return "looks at the stack of its function (an array of variable length, va_arg)";
  return std::nullopt;
}

bool isAtomicCall(const CallBase &Call) {
  return Call.getCalledFunction() && Call.getCalledFunction()->getName().startswith("__atomic_");
}

Reason refusalOfInstruction(const Instruction &I) {
  auto *Call = dyn_cast<CallBase>(&I);
  if (isa<AllocaInst>(I))
    return "takes memory of the stack whose size or number isn't fixed (alloca, an array of variable length)";
  if (isa<VAArgInst>(I)) return "takes an argument of a variable number of them (va_arg)";
  if (I.isAtomic() || (Call && isAtomicCall(*Call))) return "an atomic access, and epochs are ordered without";
  if (I.getType()->isTokenTy()) return "a value that can't be in memory";
  return Call ? refusalOfCall(*Call) : std::nullopt;
}

Reason refusalOfBlock(const BasicBlock &Block) {
  if (Block.isEHPad()) return "an exception leads into it";
  if (isa<InvokeInst>(Block.getTerminator())) return "calls what may leave it by an exception";
  if (Block.hasAddressTaken()) return "a computed goto leads into it";
  if (!isa<BranchInst, SwitchInst, UnreachableInst>(Block.getTerminator()))
    return "it is left in another way than by branches and switches (a computed goto)";
  return std::nullopt;
}

// PLACE: REASON; the place is the instruction's, or else that of its block or its loop.
std::string told(const Loop &L, const Instruction &I, const char *Why) {
  std::string Place = placeOf(I);
  if (Place == "?") Place = placeOf(I.getParent()->front());
  return (Place == "?" ? placeOf(L) : Place) + ": " + Why;
}

bool callsOthers(const Loop &L) {
  for (const BasicBlock *Block : L.blocks())
    for (const Instruction &I : *Block)
      if (auto *Call = dyn_cast<CallBase>(&I); Call && Call->getIntrinsicID() == Intrinsic::not_intrinsic) return true;
  return false;
}

} // namespace

std::optional<std::string> refusalOf(const Loop &L) {
  for (const BasicBlock *Block : L.blocks()) {
    if (Reason Why = refusalOfBlock(*Block)) return told(L, *Block->getTerminator(), *Why);
    for (const Instruction &I : *Block)
      if (Reason Why = refusalOfInstruction(I)) return told(L, I, *Why);
  }
  if (!L.isLoopSimplifyForm())
    return placeOf(L) + ": has no single entry, or exits that others share (a computed goto)";
  return std::nullopt;
}

bool mayComeAgain(const Function &F, const Loop &L) {
  // main is called once, unless the program calls it itself
  return callsOthers(L) && !F.doesNotRecurse() && (F.getName() != "main" || F.hasNUsesOrMore(1));
}

std::optional<std::string> copyRefusalOf(const Function &F, const Loop &L) {
  if (F.isVarArg())
    return placeOf(L) +
           ": calls others, and its function has a variable number of arguments, so that there can be no copy of it";
  for (const BasicBlock &Block : F)
    if (Block.hasAddressTaken())
      return placeOf(L) + ": calls others, and its function has a computed goto, so that there can be no copy of it";
  return std::nullopt;
}

} // namespace loops_of
