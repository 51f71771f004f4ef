#include "llvm/IR/LLVMContext.h"
#include "llvm/IR/Module.h"
#include "llvm/IR/LegacyPassManager.h"
#include "llvm/IRReader/IRReader.h"
#include "llvm/MC/TargetRegistry.h"
#include "llvm/Passes/PassBuilder.h"
#include "llvm/Support/SourceMgr.h"
#include "llvm/Support/TargetSelect.h"
#include "llvm/Support/raw_ostream.h"
#include "llvm/Target/TargetMachine.h"
#include "llvm/Target/TargetOptions.h"
using namespace llvm;
static const char *text = R"(
define i32 @sum(i32 %n) {
entry:
  br label %loop
loop:
  %i = phi i32 [0, %entry], [%i1, %loop]
  %s = phi i32 [0, %entry], [%s1, %loop]
  %s1 = add i32 %s, %i
  %i1 = add i32 %i, 1
  %c = icmp slt i32 %i1, %n
  br i1 %c, label %loop, label %done
done:
  ret i32 %s1
}
)";
int main() {
  InitializeAllTargetInfos(); InitializeAllTargets(); InitializeAllTargetMCs(); InitializeAllAsmPrinters(); InitializeAllAsmParsers();
  LLVMContext context; SMDiagnostic error;
  for (const char *triple : {"x86_64-linux-gnu", "aarch64-linux-gnu", "riscv64-linux-gnu"}) {
    auto module = parseIR(MemoryBufferRef(text, "text"), error, context);
    if (!module) { error.print("comp", errs()); return 1; }
    std::string message; const Target *target = TargetRegistry::lookupTarget(triple, message);
    if (!target) { errs() << message; return 2; }
    module->setTargetTriple(triple);
    std::unique_ptr<TargetMachine> machine(target->createTargetMachine(triple, "", "", TargetOptions(), Reloc::PIC_));
    module->setDataLayout(machine->createDataLayout());
    LoopAnalysisManager l; FunctionAnalysisManager f; CGSCCAnalysisManager c; ModuleAnalysisManager m; PassBuilder builder(machine.get());
    builder.registerModuleAnalyses(m); builder.registerCGSCCAnalyses(c); builder.registerFunctionAnalyses(f); builder.registerLoopAnalyses(l); builder.crossRegisterProxies(l, f, c, m);
    builder.buildPerModuleDefaultPipeline(OptimizationLevel::O2).run(*module, m);
    module->print(outs(), nullptr);
    SmallVector<char> code; raw_svector_ostream stream(code); legacy::PassManager passes;
    if (machine->addPassesToEmitFile(passes, stream, nullptr, CGFT_AssemblyFile)) return 3;
    passes.run(*module); outs() << StringRef(code.data(), code.size());
  }
  return 42;
}
