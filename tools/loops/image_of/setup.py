"""The state before a loop, as a function of the program makes it: the function runs on Unicorn's RISC-V, and the memory
that it leaves becomes the image's."""

import sys
from types import ModuleType

from .elf import Program
from .lines import lines_of
from .reasons import Refused

# What setuptools puts on the path of imports, so that its own distutils takes that one's place: unicorn imports
# distutils, and setuptools takes long to import.
SHIM = "_distutils_hack"
PAGE = 4096
# Above what memory can have: a stack, and where the function returns to
STACK, STACK_BYTES, RETURN = 0x40000000, 1 << 20, 0x50000000
SECONDS = 30
BREAKPOINT = 3                      # RISC-V's cause of EBREAK
RETURN_ADDRESS, STACK_POINTER = 1, 2


def unicorn_module() -> ModuleType:
    """Unicorn, of Debian's packages too where another Python runs than Debian's."""
    sys.meta_path[:] = [finder for finder in sys.meta_path if type(finder).__module__ != SHIM]
    try:
        import unicorn
        import unicorn.riscv_const
    except ImportError:
        sys.path.append("/usr/lib/python3/dist-packages")
        try:
            import unicorn
            import unicorn.riscv_const
        except ImportError:
            raise Refused("--setup needs an emulator, and unicorn is not installed; install the Debian package "
                          "python3-unicorn") from None
    found: ModuleType = unicorn
    return found


class Setup:
    """One run of the function."""

    def __init__(self, program: Program, name: str, memory: bytes, registers: dict[int, int]):
        entry = program.symbol(name)
        if entry is None:
            raise Refused(f"there is no function {name} for --setup; the global functions are: "
                          f"{', '.join(program.functions()[:8])}")
        self.unicorn = unicorn_module()
        self.program, self.name, self.entry, self.length = program, name, entry, len(memory)
        self.failed: str | None = None
        self.machine = self.unicorn.Uc(self.unicorn.UC_ARCH_RISCV, self.unicorn.UC_MODE_RISCV32)
        for address, length in ((0, len(memory)), (STACK, STACK_BYTES), (RETURN, PAGE)):
            self.machine.mem_map(address, length + -length % PAGE)
        self.machine.mem_write(0, memory)
        self.machine.hook_add(self.unicorn.UC_HOOK_INTR, self.stopped)
        for number, value in {**registers, RETURN_ADDRESS: RETURN, STACK_POINTER: STACK + STACK_BYTES}.items():
            self.machine.reg_write(getattr(self.unicorn.riscv_const, f"UC_RISCV_REG_X{number}"), value)

    def pc(self) -> int:
        pc: int = self.machine.reg_read(self.unicorn.riscv_const.UC_RISCV_REG_PC)
        return pc

    def stopped(self, machine: object, cause: int, _: object) -> None:
        """What a processor stops at, as ECALL and EBREAK."""
        self.failed = "EBREAK, as where a program gives up" if cause == BREAKPOINT else f"a trap with cause {cause}"
        self.machine.emu_stop()

    def memory(self) -> bytes:
        """The memory when the function has returned."""
        try:
            self.machine.emu_start(self.entry, RETURN, timeout=SECONDS * 1_000_000)
        except self.unicorn.UcError as wrong:
            self.failed = self.failed or str(wrong)
        if self.failed or self.pc() != RETURN:
            try:
                line = lines_of(self.program).at(self.pc())
            except Refused:
                line = None
            raise Refused(f"--setup {self.name}: {self.failed or f'it does not return within {SECONDS} s'}, at "
                          f"{self.program.place(self.pc(), line)}")
        return bytes(self.machine.mem_read(0, self.length))
