// What the parts of the plug-in share: a loop with what LLVM knows of it, and how places and variables are named.
#pragma once

#include "llvm/Analysis/LoopInfo.h"
#include "llvm/Analysis/ScalarEvolution.h"
#include "llvm/IR/Dominators.h"
#include "llvm/IR/Instructions.h"
#include "llvm/IR/Module.h"
#include <optional>
#include <string>
#include <vector>

namespace loops_of {

// --- planted.cpp ----------------------------------------------------------------

// Whether a test plants a mistake, by its number.
bool planted(int Number);

// The linker puts variables of this section behind all others, so that those of the program stay where they were.
constexpr const char *OwnSection = ".loops";

// A loop, and what is told of it: lines of words that tabs part.
struct OneLoop {
  llvm::Module &M;
  llvm::Function &F;
  llvm::Loop &L;
  llvm::LoopInfo &LI;
  llvm::DominatorTree &DT;
  llvm::ScalarEvolution &SE;
  std::vector<std::string> Told;
};

// --- places.cpp: names for people ----------------------------------------------

// FILE:LINE, or `?` where nothing tells it.
std::string placeOf(const llvm::DebugLoc &At);
std::string placeOf(const llvm::Loop &L);
// That of an instruction, or of the next one in its block that has a line.
std::string placeOf(const llvm::Instruction &I);
// A value's name without what LLVM puts behind that of the variable.
std::string variableOf(llvm::StringRef Name);
// A function's name as the source has it, without spaces.
std::string functionOf(const llvm::Function &F);

// --- refusals.cpp: what can't be outlined ------------------------------------

// PLACE: REASON, or nothing.
std::optional<std::string> refusalOf(const llvm::Loop &L);
// Whether the loop may lead to its own function again, which then runs a copy of itself.
bool mayComeAgain(const llvm::Function &F, const llvm::Loop &L);
// Why there can be no copy of the loop's function, or nothing.
std::optional<std::string> copyRefusalOf(const llvm::Function &F, const llvm::Loop &L);

// --- carried.cpp: from one iteration to the next -------------------------------

// A variable that all iterations share, on a line of the caches of its own.
llvm::GlobalVariable *sharedVariable(llvm::Module &M, llvm::Type *T, const llvm::Twine &Name);
// A stand-in for the epoch's number, while the loop is in its function still.
llvm::Instruction *makeEpoch(OneLoop &One);
// Takes the phis of the header away: a value that follows from the epoch's number is computed, and any other is in
// memory.
void carryInMemory(OneLoop &One, llvm::Instruction &Epoch);

// --- outline.cpp: the loop becomes a function ----------------------------------

// Makes the iteration of a loop the function `unsigned loops_body(unsigned epoch)`, and tells how.
void outline(OneLoop &One);

} // namespace loops_of
