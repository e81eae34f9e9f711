// How places, variables and functions are named for people.
#include "loops_of.h"
#include "llvm/Demangle/Demangle.h"
#include "llvm/IR/DebugInfoMetadata.h"
#include "llvm/Support/Path.h"

using namespace llvm;

namespace loops_of {

std::string placeOf(const DebugLoc &At) {
  if (!At) return "?";
  StringRef File = sys::path::filename(cast<DIScope>(At.getScope())->getFilename());
  return (File + ":" + Twine(At.getLine())).str();
}

std::string placeOf(const Loop &L) { return placeOf(L.getStartLoc()); }

std::string placeOf(const Instruction &I) {
  for (const Instruction *Next = &I; Next; Next = Next->getNextNode())
    if (Next->getDebugLoc() && Next->getDebugLoc().getLine()) return placeOf(Next->getDebugLoc());
  return "?";
}

std::string variableOf(StringRef Name) {
  std::string Made;
  for (char C : Name.take_until([](char C) { return C == '.'; })) Made += isAlnum(C) || C == '_' ? C : '_';
  return Made.empty() ? "value" : Made;
}

std::string functionOf(const Function &F) {
  std::string Name = F.getName().str(), Made;
  ItaniumPartialDemangler Parts;
  if (!Parts.partialDemangle(Name.c_str()) && Parts.isFunction()) {
    char *Found = Parts.getFunctionName(nullptr, nullptr);
    Name = Found;
    std::free(Found);
  }
  copy_if(Name, std::back_inserter(Made), [](char C) { return C != ' '; });
  return Made;
}

} // namespace loops_of
