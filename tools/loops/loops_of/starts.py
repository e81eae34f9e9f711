"""What leads from address 0 to the loop's body: the stack of an epoch, and the number of its iteration, or a turn for
each of its iterations.

Registers that are the same in all epochs are set by the image, so the instructions are few.
"""

from dataclasses import dataclass

from loops.image_of.start import SLOTS, Instruction, assembled, label, times

BODY = "body"
RETURN, STACK, SLOT_END, FIRST, CHUNK, EPOCH, END = 1, 2, 5, 6, 7, 10, 28
# What a call keeps: the next iteration, the one that is no more of this epoch, and where the epoch ends
NEXT, STOP, OVER = 8, 9, 18
# Bytes at address 0 for this: of an iteration an epoch, and of more of them
ROOM, ROOM_OF_CHUNKS = 32, 192


@dataclass(frozen=True)
class Start:
    """What leads to the iterations of an epoch."""
    body: int                       # address of the function loops_body
    slot: int                       # bytes of an epoch's stack, a power of two, or 0
    top: int                        # where the stacks begin
    first: int                      # number of epoch 0's first iteration
    chunk: int                      # iterations of an epoch
    end: int | None                 # number behind the last iteration, where that is known before

    def registers(self) -> dict[int, int]:
        """The registers that it needs."""
        needed = {FIRST: self.first} | ({SLOT_END: self.top + self.slot} if self.slot else {})
        return needed | ({CHUNK: self.chunk, END: self.end or 0} if self.chunk > 1 else {})

    def stack_pointer(self) -> list[Instruction]:
        """x2 = top + (epoch % 16 + 1) * slot."""
        turn = [Instruction("andi", STACK, EPOCH, SLOTS - 1),
                Instruction("slli", STACK, STACK, self.slot.bit_length() - 1)]
        return [*turn, Instruction("add", STACK, STACK, SLOT_END)] if self.slot else []

    def first_number(self, register: int) -> list[Instruction]:
        """Adds the number of epoch 0's first iteration."""
        return [Instruction("add", register, register, FIRST)] if self.first else []

    def iteration(self) -> list[Instruction]:
        """One iteration, whose return ends the epoch."""
        return [*self.first_number(EPOCH), Instruction("jal", 0, 0, BODY)]

    def iterations(self) -> list[Instruction]:
        """So many iterations, up to the end, or up to one that leaves the loop."""
        begin = [*times(NEXT, EPOCH, self.chunk), *self.first_number(NEXT), Instruction("add", STOP, NEXT, CHUNK)]
        least = [Instruction("bltu", STOP, END, "whole"), Instruction("addi", STOP, END, 0), label("whole")]
        keep = [Instruction("addi", OVER, RETURN, 0), label("again")]
        call = [Instruction("addi", EPOCH, NEXT, 0), Instruction("addi", NEXT, NEXT, 1),
                Instruction("jal", RETURN, 0, BODY)]
        leave = [Instruction("bne", EPOCH, 0, "over"), Instruction("bne", NEXT, STOP, "again"), label("over"),
                 Instruction("jalr", 0, OVER, 0)]
        return [*begin, *(least if self.end is not None else []), *keep, *call, *leave]

    def words(self) -> list[int]:
        """The words from address 0 on."""
        work = self.iterations() if self.chunk > 1 else self.iteration()
        return assembled([*self.stack_pointer(), *work], {BODY: self.body})
