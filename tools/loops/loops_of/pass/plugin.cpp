// An LLVM plug-in with the passes of tools/loops-of. `loops-keep` keeps variables as they are in the source,
// `loops-frames` tells where arrays of frames are, `loops-list` tells of each loop, and `loops-count` marks them. Where
// `-loops-of-number` says one, its iteration becomes a function before a compiler's own passes. What is told are lines
// on standard output, words that tabs part.
#include "loops_of.h"
#include "llvm/IR/DIBuilder.h"
#include "llvm/IR/DebugInfo.h"
#include "llvm/IR/IRBuilder.h"
#include "llvm/IR/InlineAsm.h"
#include "llvm/IR/InstIterator.h"
#include "llvm/IR/IntrinsicInst.h"
#include "llvm/IR/Verifier.h"
#include "llvm/Passes/PassBuilder.h"
#include "llvm/Passes/PassPlugin.h"
#include "llvm/Support/CommandLine.h"
#include "llvm/Transforms/Utils/Cloning.h"
#include "llvm/Transforms/Utils/ModuleUtils.h"

using namespace llvm;
using namespace loops_of;

static cl::opt<unsigned> Wanted("loops-of-number", cl::init(0),
                                cl::desc("which loop becomes a function, counted from 1 as loops-list does"));
static cl::opt<unsigned> FirstMark("loops-of-first", cl::init(0),
                                   cl::desc("the number of the first loop that loops-count marks"));

namespace {

// --- The loops of a module -----------------------------------------------------

// What LLVM knows of the functions of a module.
class Knowledge {
public:
  Knowledge() {
    PassBuilder Builder;
    Builder.registerModuleAnalyses(MAM);
    Builder.registerCGSCCAnalyses(CAM);
    Builder.registerFunctionAnalyses(FAM);
    Builder.registerLoopAnalyses(LAM);
    Builder.crossRegisterProxies(LAM, FAM, CAM, MAM);
  }

  OneLoop of(Loop &L) {
    Function &F = *L.getHeader()->getParent();
    auto &LI = FAM.getResult<LoopAnalysis>(F);
    auto &DT = FAM.getResult<DominatorTreeAnalysis>(F);
    return {*F.getParent(), F, L, LI, DT, FAM.getResult<ScalarEvolutionAnalysis>(F), {}};
  }

  // The loops in a fixed order: functions as they stand, loops from the outside in.
  std::vector<Loop *> loops(Module &M) {
    std::vector<Loop *> All;
    for (Function &F : M)
      if (!F.isDeclaration())
        for (Loop *L : FAM.getResult<LoopAnalysis>(F).getLoopsInPreorder()) All.push_back(L);
    return All;
  }

private:
  LoopAnalysisManager LAM;
  FunctionAnalysisManager FAM;
  CGSCCAnalysisManager CAM;
  ModuleAnalysisManager MAM;
};

void tell(const Twine &Line) { outs() << Line << "\n"; }

// Outlines a loop of a module, and tells how; or tells why it can't be.
void outlineNumber(Module &M, unsigned Number) {
  Knowledge Known;
  std::vector<Loop *> All = Known.loops(M);
  if (Number == 0 || Number > All.size()) report_fatal_error("there is no loop of this number", false);
  OneLoop One = Known.of(*All[Number - 1]);
  std::optional<std::string> Why = refusalOf(One.L);
  if (!Why && mayComeAgain(One.F, One.L)) Why = copyRefusalOf(One.F, One.L);
  if (Why) return tell("refused\t" + *Why);
  SmallVector<AllocaInst *, 16> Frame;
  for (Instruction &I : One.F.getEntryBlock())
    if (auto *Alloca = dyn_cast<AllocaInst>(&I); Alloca && Alloca->isStaticAlloca()) Frame.push_back(Alloca);
  outline(One);
  for (const std::string &Line : One.Told) tell(Line);
  if (verifyModule(M, &errs())) report_fatal_error("the pass made a broken module", false);
  if (!all_of(Frame, [](AllocaInst *Each) { return Each->isStaticAlloca(); }))
    report_fatal_error("the pass made a frame whose size isn't fixed", false);
}

// --- The passes ------------------------------------------------------------------

struct List : PassInfoMixin<List> {
  PreservedAnalyses run(Module &M, ModuleAnalysisManager &) {
    Knowledge Known;
    unsigned Number = 0;
    for (Loop *L : Known.loops(M)) {
      tell("loop\t" + placeOf(*L) + "\t" + functionOf(*L->getHeader()->getParent()) + "\t" + Twine(L->getLoopDepth()));
      // outlined in a copy, so that each loop is on its own
      outlineNumber(*CloneModule(M), ++Number);
    }
    return PreservedAnalyses::all();
  }
};

struct Outline : PassInfoMixin<Outline> {
  PreservedAnalyses run(Module &M, ModuleAnalysisManager &) {
    outlineNumber(M, Wanted);
    return PreservedAnalyses::none();
  }
};

// Keeps the variables as the source has them, and their names: else a bool is made of an int8_t, of one build and not
// of another.
struct Keep : PassInfoMixin<Keep> {
  PreservedAnalyses run(Module &M, ModuleAnalysisManager &) {
    SmallVector<GlobalValue *, 32> All;
    for (GlobalVariable &Each : M.globals())
      if (Each.hasInitializer() && !Each.isConstant() && !Each.getName().startswith("llvm.")) All.push_back(&Each);
    if (!All.empty()) appendToCompilerUsed(M, All);
    for (Function &F : M) nameVariables(F);
    stripNonLineTableDebugInfo(M);
    return PreservedAnalyses::none();
  }

  // Local variables get the source's names, with a full stop behind: LLVM makes i12 of the second i of a function.
  static void nameVariables(Function &F) {
    for (Instruction &I : instructions(F))
      if (auto *Declared = dyn_cast<DbgDeclareInst>(&I); Declared && Declared->getAddress())
        Declared->getAddress()->setName(Declared->getVariable()->getName() + ".");
  }
};

// Tells in the debug information where the arrays of frames are, which had lines alone till now, so that nothing before
// this looked at more than lines.
struct Frames : PassInfoMixin<Frames> {
  PreservedAnalyses run(Module &M, ModuleAnalysisManager &) {
    NamedMDNode *Units = M.getNamedMetadata("llvm.dbg.cu");
    if (!Units) return PreservedAnalyses::all();
    DebugInfoFinder Found;
    Found.processModule(M);
    Units->clearOperands();
    for (DICompileUnit *Unit : Found.compile_units()) {
      DICompileUnit *Whole = wholeOf(*Unit);
      Units->addOperand(Whole);
      for (DISubprogram *Each : Found.subprograms())
        if (Each->getUnit() == Unit) Each->replaceUnit(Whole);
    }
    for (Function &F : M)
      if (!F.isDeclaration() && F.getSubprogram()) tellArrays(F);
    return PreservedAnalyses::none();
  }

  // A unit that tells of variables too.
  static DICompileUnit *wholeOf(DICompileUnit &Unit) {
    return DICompileUnit::getDistinct(Unit.getContext(), Unit.getSourceLanguage(), Unit.getFile(), Unit.getProducer(),
                                      Unit.isOptimized(), Unit.getFlags(), Unit.getRuntimeVersion(), "",
                                      DICompileUnit::FullDebug, nullptr, nullptr, nullptr, nullptr, nullptr, 0, true,
                                      false, Unit.getNameTableKind(), false, "", "");
  }

  static void tellArrays(Function &F) {
    DISubprogram *Of = F.getSubprogram();
    DIBuilder DIB(*F.getParent(), false, Of->getUnit());
    SmallVector<AllocaInst *, 16> All;
    for (Instruction &I : F.getEntryBlock())
      if (auto *Alloca = dyn_cast<AllocaInst>(&I); Alloca && Alloca->isStaticAlloca()) All.push_back(Alloca);
    for (AllocaInst *Each : All) {
      uint64_t Bits = Each->getAllocationSizeInBits(F.getParent()->getDataLayout())->getFixedSize();
      DIType *Bytes = DIB.createBasicType("bytes", Bits, dwarf::DW_ATE_unsigned);
      DILocalVariable *Variable =
          DIB.createAutoVariable(Of, variableOf(Each->getName()), Of->getFile(), Of->getLine(), Bytes);
      DIB.insertDeclare(Each, Variable, DIB.createExpression(), DILocation::get(F.getContext(), 0, 0, Of),
                        Each->getNextNode());
    }
  }
};

// Marks where loops are entered, where their iterations begin and where they are left: by instructions that do nothing,
// and that compilers don't write.
struct Count : PassInfoMixin<Count> {
  PreservedAnalyses run(Module &M, ModuleAnalysisManager &) {
    Knowledge Known;
    unsigned Number = FirstMark;
    for (Loop *L : Known.loops(M)) mark(*L, Number++);
    return PreservedAnalyses::none();
  }

  static void mark(Loop &L, unsigned Number) {
    if (!L.isLoopSimplifyForm()) return;
    markAt(L.getLoopPreheader()->getTerminator(), "xori", Number);
    markAt(&*L.getHeader()->getFirstInsertionPt(), "ori", Number);
    SmallVector<BasicBlock *, 8> Exits;
    L.getUniqueExitBlocks(Exits);
    for (BasicBlock *Exit : Exits) markAt(&*Exit->getFirstInsertionPt(), "andi", Number);
  }

  static void markAt(Instruction *Place, const char *Name, unsigned Number) {
    constexpr unsigned Immediates = 2048;
    std::string Text = (Twine(Name) + " x0, x" + Twine(Number / Immediates) + ", " + Twine(Number % Immediates)).str();
    auto *Type = FunctionType::get(llvm::Type::getVoidTy(Place->getContext()), false);
    IRBuilder<> B(Place);
    CallInst *Mark = B.CreateCall(InlineAsm::get(Type, Text, "", true), {});
    if (DISubprogram *Of = Place->getFunction()->getSubprogram())
      Mark->setDebugLoc(DILocation::get(Place->getContext(), 0, 0, Of));
  }
};

bool addPass(StringRef Name, ModulePassManager &Passes, ArrayRef<PassBuilder::PipelineElement>) {
  if (Name == "loops-keep") Passes.addPass(Keep());
  else if (Name == "loops-frames") Passes.addPass(Frames());
  else if (Name == "loops-list") Passes.addPass(List());
  else if (Name == "loops-count") Passes.addPass(Count());
  else return false;
  return true;
}

} // namespace

extern "C" LLVM_ATTRIBUTE_WEAK PassPluginLibraryInfo llvmGetPassPluginInfo() {
  return {LLVM_PLUGIN_API_VERSION, "loops-of", "1",
          [](PassBuilder &Builder) {
            Builder.registerPipelineParsingCallback(addPass);
            Builder.registerPipelineStartEPCallback([](ModulePassManager &Passes, OptimizationLevel) {
              if (Wanted != 0) Passes.addPass(Outline());
            });
          }};
}
