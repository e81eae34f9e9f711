"""The text of the image of a linked program."""

from collections.abc import Iterator
from dataclasses import dataclass
from pathlib import Path

from loops.images import there
from loops.names import line as printable
from loops.names import word

from .compilers import REMARK, TOP, Options, made_with, text_of
from .elf import EXECUTABLE, THREADS, WRITABLE, Program, Section, unfit
from .lines import Lines, lines_of
from .reasons import Refused, call_reason
from .setup import Setup
from .words import tells_line, uses_register

LARGEST_SIZE = {1: 65_536, 2: 1_048_576}
LINE = {1: 16, 2: 32}
LONGEST_TEXT = 1_048_576
GLOBAL_POINTER, THREAD_POINTER = 3, 4


def needs_stack(code: bytes) -> bool:
    words = (int.from_bytes(code[i:i + 4], "little") for i in range(0, len(code), 4))
    return any(uses_register(one, 2) for one in words)


def remarks(path: Path, kind: str) -> list[str]:
    """The lines at the top of a source that begin with its sign of a remark, without options."""
    sign = REMARK.get(kind)
    if sign is None:
        return []
    lines = []
    for line in text_of(path).splitlines():
        if not line.startswith(sign):
            break
        if not line.startswith(f"{sign} image:"):
            lines.append("#" + printable(line[len(sign):]))
    return lines


@dataclass
class Layout:
    """Code from address 0, and memory behind it."""
    code: bytes
    rest: list[tuple[int, bytes]]   # address and bytes
    top: int                        # where the stacks begin
    threads: int | None             # where the thread_local variables are, if there are some


def layout_of(program: Program, options: Options) -> Layout:
    """The layout of a program that was linked here."""
    program.check_sections((".text", ".rest", ".tdata"))
    top = program.symbol(TOP) or 0
    size_of(top, options)
    code = program.contents(".text")
    parts = [one for one in program.placed() if one.name in (".rest", ".tdata")]
    threads = next((one.address for one in parts if one.flags & THREADS), None)
    return Layout(code + bytes(-len(code) % 4), [(one.address, one.data()) for one in parts], top, threads)


def check_linked(program: Program) -> None:
    """Refuses a program that was linked elsewhere where its sections don't fit into the memory of an image."""
    placed, most = program.placed(), LARGEST_SIZE[2]
    last = max((one.end for one in placed), default=0)
    if last > most:
        raise Refused(f"{program.path}: its sections end at address {last:08x}, and memory ends at {most:08x}; link it "
                      "there, as by -Ttext=0x20")
    program.check_sections([one.name for one in placed])
    if not program.placed(EXECUTABLE):
        raise Refused(f"{program.path}: no section of it is code")
    end = end_of_code(program)
    for one in program.placed(WRITABLE):
        if one.address < end:
            raise Refused(f"{program.path}: the section {word(one.name)} can be written and lies at {one.address:08x}, "
                          f"before the code ends at {end:08x}; "
                          "link the code below the variables")
    held = [one for one in placed if not is_block(one)]
    for one, following in zip(held, held[1:]):
        if one.end > following.address:
            raise Refused(f"{program.path}: its sections {word(one.name)} and {word(following.name)} overlap at "
                          f"{following.address:08x}")
    program.check_segments()


def is_block(section: Section) -> bool:
    """Whether a section only says how many zeros each thread has, and takes no memory itself."""
    return bool(section.flags & THREADS) and not section.in_file


def end_of_code(program: Program) -> int:
    end = max(one.end for one in program.placed(EXECUTABLE))
    return end + -end % 4


def block_of_threads(program: Program, top: int) -> tuple[int | None, list[tuple[int, bytes]], int]:
    """Where the thread_local variables are, the bytes that are put there, and where memory ends then: above all else,
    where what is theirs is another's too."""
    parts = [one for one in program.placed() if one.flags & THREADS]
    if not parts:
        return None, [], top
    first, last = parts[0].address, max(one.end for one in parts)
    others = [one for one in program.placed() if not one.flags & THREADS]
    if not any(one.address < last and first < one.end for one in others):
        return first, [], max(top, last + -last % 16)
    data = bytearray(last - first)
    for one in parts:
        data[one.address - first:one.end - first] = one.data()
    return top, [(top, bytes(data))], top + len(data) + -len(data) % 16


def layout_of_linked(program: Program, options: Options) -> Layout:
    """The layout of a program that was linked elsewhere: where its sections are, with a jump to the entry at address
    0."""
    check_linked(program)
    entry = program.symbol(options.entry)
    if entry is None:
        there = ", ".join(program.functions()[:8])
        raise Refused(f"{program.path}: has no symbol {options.entry}; --entry NAME names another function"
                      + (f", of {there}" if there else "; it has no symbols of functions at all"))
    placed, end = [one for one in program.placed() if not is_block(one)], end_of_code(program)
    last = max(one.end for one in placed)
    threads, block, top = block_of_threads(program, last + -last % 16)
    size_of(top, options)
    code = bytearray(end)
    for one in placed:
        if one.address < end:
            code[one.address:one.end] = one.data()
    begins = options.start.stack or options.start.chunk > 1 or entry
    words = options.start.words(entry, top) if begins else []
    if any(one.address < 4 * len(words) for one in placed):
        raise Refused(f"{program.path}: {options.entry} isn't at address 0, and no {4 * len(words)} bytes are free "
                      "there for what leads to it; "
                      f"link it from address {max(32, 4 * len(words))} on, as by -Ttext={max(32, 4 * len(words)):#x}")
    for number, instruction in enumerate(words):
        code[4 * number:4 * number + 4] = instruction.to_bytes(4, "little")
    return Layout(bytes(code), [(one.address, one.data()) for one in placed if one.address >= end] + block, top,
                  threads)


def line_remarks(program: Program, layout: Layout) -> Iterator[str]:
    """The line of the source of each load and store, and of what stops a program."""
    told = lines_of(program)
    if not told.addresses:
        raise Refused("no file says which line an instruction comes from; compile the objects with -g")
    for pc, one in program.instructions():
        found = told.at(pc) if pc < len(layout.code) and pc % 4 == 0 and tells_line(one) else None
        if found:
            yield f"# code {pc:08x} {found}"


def map_of(program: Program, options: Options, layout: Layout) -> list[str]:
    """Remarks that say where the variables and the stacks are, and with -g where the instructions come from."""
    start = options.start
    lines = [f"# {word(name)} {address:08x} {length}" for address, name, length in program.variables(layout.threads)]
    if start.stack:
        whose = "each epoch" if start.epochs <= start.slots else f"{start.slots} epochs in turn"
        lines.append(f"# stacks {layout.top:08x} {start.stack * start.slots}, {start.stack} of {whose}")
    if lines:
        lines = ["# Variables, each with its address and its bytes:", *lines]
    if start.chunk > 1:
        lines.insert(0, f"# An epoch calls {word(options.entry)} {start.chunk} times, for the iterations from "
                        f"{start.chunk} times its number on; there are {start.iterations}.")
    return lines + (list(line_remarks(program, layout)) if options.g else [])


def at_lines(start: int, data: bytes) -> Iterator[str]:
    """Lines of 16 bytes, those of zeros alone left out."""
    first = start // 16 * 16
    data = bytes(start - first) + data
    for place in range(0, len(data), 16):
        part = data[place:place + 16]
        if any(part):
            skipped = max(start - first - place, 0)
            yield f"at {first + place + skipped:08x} {part[skipped:].hex()}"


def overlays(program: Program, options: Options, layout: Layout) -> Iterator[tuple[int, bytes]]:
    """The files that --data puts over variables: address and bytes."""
    for name, path in options.data:
        variables = {one: (address, length) for address, one, length in program.variables(layout.threads)}
        address, length = variables.get(name, (program.symbol(name), None))
        if address is None:
            raise Refused(f"--data {name}: there is no variable of this name")
        size, most = path.stat().st_size, LARGEST_SIZE[options.version] if length is None else length
        if size > most:
            raise Refused(f"--data {name}: {path} has {size} bytes, and the "
                          f"{'memory' if length is None else 'variable'} {most}")
        if address < len(layout.code):
            raise Refused(f"--data {name}: it lies in the code, at {address:08x}; files are put over variables alone")
        yield address, path.read_bytes()


def whole_lines(start: int, data: bytes) -> Iterator[str]:
    """Lines of 16 bytes, those of zeros too, since they may stand over something."""
    for place in range(0, len(data), 16):
        yield f"at {start + place:08x} {data[place:place + 16].hex()}"


def set_up(program: Program, options: Options, layout: Layout,
           over: list[tuple[int, bytes]]) -> list[tuple[int, bytes]]:
    """The memory behind the code, as the function of --setup leaves it."""
    memory = bytearray(layout.top)
    for address, data in [(0, layout.code), *layout.rest, *over]:
        memory[address:address + len(data)] = data
    after = Setup(program, there(options.setup), bytes(memory), dict(registers_of(program, options, layout))).memory()
    if after[:len(layout.code)] != layout.code:
        raise Refused(f"--setup {options.setup} writes into the code")
    return [(len(layout.code), after[len(layout.code):])]


def size_of(top: int, options: Options) -> int:
    """The bytes of memory, for a program that ends here and its stacks."""
    end = top + (options.start.stack or 0) * options.start.slots
    line, most = LINE[options.version], LARGEST_SIZE[options.version]
    size = options.size or max(line, (end + line - 1) // line * line)
    if end > size:
        raise Refused(f"code, variables and stacks need {end} bytes, more than the {size} bytes of the image; give a "
                      "larger --size")
    if size > most:
        more = "; --version 2 has up to 1048576" if options.version == 1 else ""
        raise Refused(f"code, variables and stacks need {end} bytes, more than {most} bytes{more}")
    return size


def registers_of(program: Program, options: Options, layout: Layout) -> list[tuple[int, int]]:
    """Registers at the start: those of the command line, what a linked program expects in its global pointer, and where
    thread_local variables are."""
    found = dict(options.reg)
    pointer = program.symbol("__global_pointer$") if options.linked else None
    if pointer is not None:
        found.setdefault(GLOBAL_POINTER, pointer)
    if layout.threads is not None and found.setdefault(THREAD_POINTER, layout.threads) != layout.threads:
        raise Refused("--reg 4 and the thread_local variables both set the thread pointer, these to "
                      f"{layout.threads:08x}; leave --reg 4 out")
    return sorted(found.items())


def check_words(program: Program) -> None:
    """Refuses instructions that RV32I hasn't: the first of each extension, with its place."""
    found = program.unfit()
    if found:
        try:
            lines = lines_of(program)
        except Refused:
            lines = Lines([])       # the instruction is the reason, and not its line
        raise Refused("\n".join(f"{program.place(pc, lines.at(pc))}: {unfit(extension, one)}"
                                for extension, (pc, one) in found.items()))


def check_stack(program: Program, options: Options, layout: Layout) -> None:
    """Refuses a program that needs a stack and has none."""
    if not options.stack and 2 not in dict(options.reg) and needs_stack(layout.code):
        calls = call_reason([one.name for one in program.symbols])
        raise Refused("the code needs a stack; " + (calls or "make its functions inline, use fewer variables at a "
                                                             "time, or give --stack BYTES"))


def image_text(program: Program, options: Options) -> str:
    """The text of the image."""
    layout = layout_of_linked(program, options) if options.linked else layout_of(program, options)
    check_words(program)
    check_stack(program, options, layout)
    size = size_of(layout.top, options)
    names = printable(" and ".join(path.name for path, _ in options.inputs))
    heading = (remarks(*options.inputs[0]) + [f"# Made from {names} by "
                                              f"{printable(options.program)}{made_with(options)}."]
               + map_of(program, options, layout))
    # a version line stands above all but remarks
    lines = (["version 2"] if options.version == 2 else []) + (["exit"] if options.exit else [])
    lines += [f"size {size}", f"epochs {options.start.epochs}", f"limit {options.start.limit(options.limit)}",
              f"code {layout.code.hex()}"]
    lines += [f"reg {register} {value:08x}" for register, value in registers_of(program, options, layout)]
    over = list(overlays(program, options, layout))
    rest, over = (set_up(program, options, layout, over), []) if options.setup else (layout.rest, over)
    for first, data in rest:
        lines += at_lines(first, data)
    for first, data in over:
        lines += whole_lines(first, data)
    text = "\n".join([*heading, *lines]) + "\n"
    length = len(text.encode("utf-8", "surrogateescape"))
    if length > LONGEST_TEXT:
        raise Refused(f"the text of the image has {length} bytes, more than {LONGEST_TEXT}; use fewer bytes that "
                      "aren't zero"
                      + (", or leave -g out" if options.g else ""))
    return text
