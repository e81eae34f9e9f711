"""Worked outputs of `replay steps`, written by hand from the worked examples of the protocol; and what steps come to
together."""

import re

# Each is what stands above the line `end`. A `{bytes}` is filled up with zeros to 16 bytes.

# Epoch 0 stores 1 to 64, which epoch 1 has loaded.
VIOLATED_CACHES = """\
turn 0 0 go
entry 0 start 0
attempt 0 0 speculative
hart 0 00000000 0
turn 1 1 go
entry 1 start 1
attempt 1 1 speculative
hart 1 00000000 0
turn 2 0 go
entry 0 store 00000040 4 00000001
hart 0 00000018 3
line 0 0 0 00000040 SpE - 0000000f {01}
turn 3 1 go
entry 1 load 00000040 4 00000000
hart 1 00000008 2
line 0 0 0 00000040 SpS - 0000000f {01}
orb 0 00000040
line 1 0 0 00000040 SpS loaded 00000000 {00}
turn 4 0 left
entry 0 hurt 1
entry 0 commit
attempt 0 -
attempt 1 -
hart 0 -
line 0 0 0 00000040 M - 00000000 {01}
orb 0
line 1 0 0 -
at 00000040 {01}
turn 5 1 go
entry 1 restart
attempt 1 1 speculative
hart 1 00000000 0
turn 6 1 go
entry 1 load 00000040 4 00000001
hart 1 00000008 2
line 0 0 0 00000040 S - 00000000 {01}
line 1 0 0 00000040 SpS loaded 00000000 {01}
turn 7 1 over done 2
entry 1 commit
attempt 1 -
hart 1 -
line 1 0 0 00000040 S - 00000000 {01}
"""
VIOLATED_PLAIN = """\
turn 0 0 go
entry 0 start 0
attempt 0 0 speculative
hart 0 00000000 0
turn 1 1 go
entry 1 start 1
attempt 1 1 speculative
hart 1 00000000 0
turn 2 0 go
entry 0 store 00000040 4 00000001
hart 0 00000018 3
kept 0 00000040 0000 000f {01}
turn 3 1 go
entry 1 load 00000040 4 00000000
hart 1 00000008 2
kept 1 00000040 000f 0000 {00}
turn 4 0 left
entry 0 hurt 1
entry 0 commit
attempt 0 -
attempt 1 -
hart 0 -
kept 0 00000040 0000 0000 {00}
kept 1 00000040 0000 0000 {00}
at 00000040 {01}
turn 5 1 go
entry 1 restart
attempt 1 1 speculative
hart 1 00000000 0
turn 6 1 go
entry 1 load 00000040 4 00000001
hart 1 00000008 2
kept 1 00000040 000f 0000 {00}
turn 7 1 over done 2
entry 1 commit
attempt 1 -
hart 1 -
kept 1 00000040 0000 0000 {00}
"""
# Epoch 0 has loaded the word at 64, to which epoch 1 stores 1: nobody is violated.
NOT_VIOLATED_CACHES = """\
turn 0 0 go
entry 0 start 0
attempt 0 0 speculative
hart 0 00000000 0
turn 1 1 go
entry 1 start 1
attempt 1 1 speculative
hart 1 00000000 0
turn 2 0 go
entry 0 load 00000040 4 00000000
hart 0 00000010 2
line 0 0 0 00000040 SpE loaded 00000000 {00}
turn 3 1 go
entry 1 store 00000040 4 00000001
hart 1 00000008 2
line 0 0 0 00000040 SpS loaded 00000000 {00}
line 1 0 0 00000040 SpS - 0000000f {01}
orb 1 00000040
turn 4 0 left
entry 0 commit
attempt 0 -
hart 0 -
line 0 0 0 00000040 S - 00000000 {00}
turn 5 1 over done 2
entry 1 commit
attempt 1 -
hart 1 -
line 0 0 0 -
line 1 0 0 00000040 M - 00000000 {01}
orb 1
at 00000040 {01}
"""
NOT_VIOLATED_PLAIN = """\
turn 0 0 go
entry 0 start 0
attempt 0 0 speculative
hart 0 00000000 0
turn 1 1 go
entry 1 start 1
attempt 1 1 speculative
hart 1 00000000 0
turn 2 0 go
entry 0 load 00000040 4 00000000
hart 0 00000010 2
kept 0 00000040 000f 0000 {00}
turn 3 1 go
entry 1 store 00000040 4 00000001
hart 1 00000008 2
kept 1 00000040 0000 000f {01}
turn 4 0 left
entry 0 commit
attempt 0 -
hart 0 -
kept 0 00000040 0000 0000 {00}
turn 5 1 over done 2
entry 1 commit
attempt 1 -
hart 1 -
kept 1 00000040 0000 0000 {00}
at 00000040 {01}
"""
# Two epochs store 255 to neighbouring bytes.
BYTES_PLAIN = """\
turn 0 0 go
entry 0 start 0
attempt 0 0 speculative
hart 0 00000000 0
turn 1 1 go
entry 1 start 1
attempt 1 1 speculative
hart 1 00000000 0
turn 2 0 go
entry 0 store 00000040 1 000000ff
hart 0 00000008 2
kept 0 00000040 0000 0001 {ff}
turn 3 1 go
entry 1 store 00000041 1 000000ff
hart 1 00000008 2
kept 1 00000040 0000 0002 {00ff}
turn 4 0 left
entry 0 commit
attempt 0 -
hart 0 -
kept 0 00000040 0000 0000 {00}
at 00000040 {ff}
turn 5 1 over done 2
entry 1 commit
attempt 1 -
hart 1 -
kept 1 00000040 0000 0000 {00}
at 00000040 {ffff}
"""
# An epoch adds 1 to the word at 64, and then faults.
FAULTED_CACHES = """\
turn 0 0 go
entry 0 start 0
attempt 0 0 speculative
hart 0 00000000 0
turn 1 0 go
entry 0 load 00000040 4 00000000
hart 0 00000004 1
line 0 0 0 00000040 SpE loaded 00000000 {00}
turn 2 0 go
entry 0 store 00000040 4 00000001
hart 0 0000000c 3
line 0 0 0 00000040 SpE loaded 0000000f {01}
turn 3 0 over fault 0 2 0000000c
entry 0 fault 2 0000000c
attempt 0 0 straight
hart 0 -
line 0 0 0 00000040 M - 00000000 {01}
at 00000040 {01}
"""
FAULTED_PLAIN = """\
turn 0 0 go
entry 0 start 0
attempt 0 0 speculative
hart 0 00000000 0
turn 1 0 go
entry 0 load 00000040 4 00000000
hart 0 00000004 1
kept 0 00000040 000f 0000 {00}
turn 2 0 go
entry 0 store 00000040 4 00000001
hart 0 0000000c 3
kept 0 00000040 000f 000f {01}
turn 3 0 over fault 0 2 0000000c
entry 0 fault 2 0000000c
attempt 0 0 straight
hart 0 -
kept 0 00000040 0000 0000 {00}
at 00000040 {01}
"""
# One epoch loads the word at 64, and stores 0 to it.
COUNTED_CACHES = """\
turn 0 0 go
entry 0 start 0
attempt 0 0 speculative
hart 0 00000000 0
turn 1 0 go
entry 0 load 00000040 4 00000000
hart 0 00000004 1
line 0 0 0 00000040 SpE loaded 00000000 {00}
turn 2 0 go
entry 0 store 00000040 4 00000000
hart 0 0000000c 3
line 0 0 0 00000040 SpE loaded 0000000f {00}
turn 3 0 over done 1
entry 0 commit
attempt 0 -
hart 0 -
line 0 0 0 00000040 M - 00000000 {00}
"""
COUNTED_PLAIN = """\
turn 0 0 go
entry 0 start 0
attempt 0 0 speculative
hart 0 00000000 0
turn 1 0 go
entry 0 load 00000040 4 00000000
hart 0 00000004 1
kept 0 00000040 000f 0000 {00}
turn 2 0 go
entry 0 store 00000040 4 00000000
hart 0 0000000c 3
kept 0 00000040 000f 000f {00}
turn 3 0 over done 1
entry 0 commit
attempt 0 -
hart 0 -
kept 0 00000040 0000 0000 {00}
"""
# The loop of no epochs is over at the first turn.
OVER_AT_ONCE = "turn 0 0 over done 0\n"


def steps(above: str, below: str) -> str:
    """All that is printed: the first with its bytes filled up, and the other below a line `end`."""
    return re.sub(r"{(\w+)}", lambda found: found[1].ljust(32, "0"), above) + "end\n" + below


# How many words name a place.
NAMED = {"attempt": 2, "hart": 2, "line": 4, "orb": 2, "kept": 3, "at": 2}
# The words of a turn, its entries and its changes
Turn = tuple[list[str], list[str], list[str]]


def turns_of(output: str) -> list[Turn]:
    """The turns of an output."""
    turns: list[Turn] = []
    for line in output.partition("end\n")[0].splitlines():
        word, _, rest = line.partition(" ")
        if word == "turn":
            turns.append((rest.split(), [], []))
        elif word == "entry":
            turns[-1][1].append(rest)
        else:
            turns[-1][2].append(line)
    return turns


def answers(turns: list[Turn]) -> list[str]:
    """What the turns were answered."""
    return [" ".join(head[2:]) for head, _, _ in turns]


def entries(turns: list[Turn]) -> list[str]:
    """The entries of all turns."""
    return [entry for _, those, _ in turns for entry in those]


def standing(turns: list[Turn]) -> dict[tuple[str, ...], list[str]]:
    """What stands at each place after these turns: the words below the name of the place."""
    words = [line.split() for _, _, changes in turns for line in changes]
    return {tuple(line[:NAMED[line[0]]]): line[NAMED[line[0]]:] for line in words}


def copies(turns: list[Turn], core: str) -> list[str]:
    """The core's copies after these turns: address, state, mark and mask of each."""
    return sorted(" ".join(copy[:4]) for place, copy in standing(turns).items() if place[:2] == ("line", core)
                  and copy != ["-"])


def buffer(turns: list[Turn], core: str) -> list[str]:
    """The addresses in the core's buffer after these turns."""
    return standing(turns).get(("orb", core), [])
