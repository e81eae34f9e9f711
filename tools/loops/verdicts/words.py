"""The sentences of a verdict."""

from collections.abc import Callable
from dataclasses import dataclass, field

from loops import Dependences, Report, Violation
from loops.gains import Gain
from loops.images import there
from loops.pictures.attempts import Blamed
from loops.pictures.words import advice, listed as places_listed, plural
from loops.stores import MOST_SETS, Store

from .aparts import Parted
from .chunks import Chunk, Measured, maker_of
from .costs import MOST_TRIED, SHORT, Dearest
from .flow import earliest, flow
from .losses import Losses
from .sizes import ALIKE, Sizes, are_alike
from .waits import Waited

MOST_PAIRS = 3
# What dependences allow is told where it is so many times what the loop gains.
WELL_ABOVE = 1.2
# A part of the steps is told as holding a loop back where it has so many hundredths of them.
LEAST = 5
KINDS = {"true": "true sharing", "silent": "silent stores", "false": "false sharing", "buffer": "full buffers",
         "other": "unexplained"}
# The causes of faults, as they are printed
CAUSES = {
    1: "a word that is no instruction", 2: "ECALL or EBREAK", 3: "a jump out of the code",
    4: "a jump to an address that is no multiple of 4",
    5: "an address that is no multiple of the access's width", 6: "a load outside memory",
    7: "a store outside memory or into the code",
    8: "more instructions than the limit allows",
}


@dataclass
class Findings:
    """What the programs say of a loop on so many cores, at even speed."""
    name: str
    store: Store                        # the caches that it speaks of
    one: Gain                           # over these, on one core
    caches: Gain
    plain: Gain
    over_caches: Losses
    over_plain: Losses | None           # none where its history is longer than a trace may be
    chunk: Chunk | None = None
    measured: Measured | None = None
    flow: Dependences | None = None     # none where `depends` isn't built
    sizes: Sizes | None = None          # none where the caches are large
    # what its dependences allow, where loads wait for commits, and where for stores
    allowed: tuple[float, float] | None = None
    waits: list[Waited] = field(default_factory=list)       # over these caches, a load each
    aparts: list[Parted] = field(default_factory=list)      # over these caches, where a variable lies apart
    held: Gain | None = None            # over these caches, where each load waits for what earlier epochs store
    dearest: Dearest | None = None      # over these caches; none where no cost was tried


def percent(part: int, run: Gain) -> float:
    return 100 * part / (run.cores * run.count("steps"))


def listed(words: list[str]) -> str:
    return " and ".join(filter(None, [", ".join(words[:-1]), *words[-1:]]))


# --- What it gains -----------------------------------------------------------

def outcome(run: Gain, one: Gain) -> str:
    """A gain, or below 1 a loss."""
    steps = f"{run.steps:,} steps in place of {one.steps:,}"
    gain = there(run.gain)
    if gain < 1:
        return f"loses on {plural(run.cores, 'core')} at even speed, a gain of {gain:.2f}: {steps}."
    return f"gains {gain:.2f} on {plural(run.cores, 'core')} at even speed: {steps}."


def gained(found: Findings) -> str:
    """What the loop gains, and where the steps of its cores went."""
    caches, plain = found.caches, found.plain
    if caches.gain is None:
        told = (f"{found.name} takes {caches.steps:,} steps on {plural(caches.cores, 'core')} at even speed; on one "
                "its history is full, so what it gains isn't known.")
    else:
        told = f"{found.name} {outcome(caches, found.one)}"
    if plain.gain is not None:
        told += (" Over a plain store of bytes it "
                 f"{f'gains {plain.gain:.2f}' if plain.gain >= 1 else f'loses, a gain of {plain.gain:.2f}'}.")
    if caches_cost(found.caches, found.plain):
        told += " So the caches cost most of what there is to gain."
    told += f" {machine_words(found.store)}{size_words(found)}"
    parts = [f"{percent(count, caches):.0f} % are {word}" for word in ("useful", "lost", "dropped", "waiting", "idle")
             for count in [caches.count(word)] if count]
    return f"{told} Of all steps {listed(parts)}."


def caches_cost(over_caches: Gain, over_plain: Gain) -> bool:
    """Whether it gains over the plain store and nearly nothing over caches: less than a third of what there is to
    gain."""
    caches, plain = over_caches.gain, over_plain.gain
    return caches is not None and plain is not None and plain >= 1.2 and 3 * (caches - 1) < plain - 1


# --- The caches that it speaks of ----------------------------------------------

def machine_words(store: Store) -> str:
    """The caches, by the word that was given where it says more than the version does."""
    return f"The caches have {store.machine.says()}{'' if store.is_usual else f', as {store.word} asks'}."


def too_small(found: Findings) -> str:
    """Why larger caches gain more, as far as the run says it."""
    machine, lines = found.store.machine, found.over_caches.most_lines
    if lines > machine.lines:
        return f": the caches of {plural(machine.lines, 'line')} are too small for an epoch of {plural(lines, 'line')}"
    if percent(found.caches.count("noway"), found.caches) >= LEAST:
        return f": its epochs wait for a way in a set of {machine.ways}"
    if any(found.caches.count(name) for name in ("orbfull", "orbbusy", "buffer")):
        return f": the buffers of {plural(machine.buffer, 'line')} are too small"
    return ""


def size_words(found: Findings) -> str:
    """Where what it gains hangs on the size of the caches; and from which size on they gain what the plain store
    does."""
    if found.sizes is None:
        return ""
    large, told = found.sizes.large, ""
    if not are_alike(large.run, found.caches):
        more = there(large.run.gain) > there(found.caches.gain)
        told = (f" With {large.machine.says()}, it gains {large.run.gain:.2f}"
                f"{too_small(found) if more else ': it hangs on the size of the caches'}.")
    if not found.sizes.is_tried:
        return told
    enough, ways = found.sizes.enough, large.machine.ways
    if enough is None:
        return told + (f" No caches of {ways} ways up to {MOST_SETS:,} sets gain as much as the plain store: what they "
                       "cost isn't for want of room.")
    return told + (f" Of caches of {ways} ways, the first that gain as much as the plain store, within {ALIKE} %, have "
                   f"{plural(enough.machine.sets, 'set')}, {plural(enough.machine.lines, 'line')}.")


# --- What its dependences allow ----------------------------------------------

def allowed_words(found: Findings) -> str:
    """What the loop could gain if loads waited only for what they need, where that is well above what it gains."""
    gain = found.caches.gain
    if gain is None or found.allowed is None:
        return ""
    commit, forward = found.allowed
    if forward < WELL_ABOVE * gain:
        return ""
    told = f" Its dependences allow {commit:.2f} on {plural(found.caches.cores, 'core')}"
    if forward == commit:
        return f"{told}."
    return (f"{told} where a load waits for the commit of the epoch that it depends on, and {forward:.2f} where it "
            "gets the value as soon as it is stored.")


def wait_words(found: Findings) -> str:
    """What the loop gains where one of the loads that were hit waits until its epoch is the first."""
    lines = [at(found.over_caches, one.load) for one in found.waits]
    told = [f"{one.run.gain:.2f} at {line}" + (f" ({one.load:08x})" if lines.count(line) > 1 else "")
            for one, line in zip(found.waits, lines) if one.run.gain is not None]
    return f" Where one load waits until its epoch is the first, it gains {listed(told)}." if told else ""


def apart_words(found: Findings) -> str:
    """What the loop gains where pieces of a variable have lines of their own."""
    told = [f"for each {one.apart.piece} bytes of {one.name} it gains {one.run.gain:.2f}" for one in found.aparts
            if one.run.gain is not None]
    return f" With a line of its own {listed(told)}." if told else ""


def held_words(found: Findings) -> str:
    """What the loop gains where each load waits for the earlier epochs that store to its line, where that is something
    else."""
    held = found.held
    if held is None or (held.steps, held.full) == (found.caches.steps, False):
        return ""
    told = " Where each load waits for the earlier epochs that store to its line,"
    if held.full:
        return f"{told} its history is full."
    gain = held.gain
    if gain is None:
        return ""
    return f"{told} it gains {gain:.2f}." if gain >= 1 else f"{told} it loses, a gain of {gain:.2f}."


def unknown_words(full: list[int]) -> str:
    """At which costs it isn't known whether the loop gains."""
    if not full:
        return ""
    where = f"{full[0]}" if len(full) == 1 else f"{len(full)} of these costs, between {full[-1]} and {full[0]},"
    return f", but at {where} its history is full, so that isn't known"


def dearest_words(found: Findings) -> str:
    """Up to which cost of communication the loop takes fewer steps than in order."""
    if found.dearest is None:
        takes = ("its history is full" if found.one.steps is None
                 else f"it takes {plural(found.one.steps, 'step')}, more than {SHORT:,}")
        return (" Up to which cost of communication it gains wasn't tried, since that takes up to "
                f"{MOST_TRIED + 1} runs and on one core {takes}: --even-at asks for it.")
    at, each = found.dearest.at, "each miss, upgrade, begin, restart, commit and published line"
    unknown = unknown_words(found.dearest.full)
    if at is None:
        return (f" Whatever {each} costs, up to {MOST_TRIED} steps, it takes no fewer steps than the loop in "
                f"order{unknown}.")
    if at == 0:
        return (f" Where {each} costs 1 to {MOST_TRIED} steps more, it takes no fewer steps than the loop in "
                f"order{unknown}.")
    told = f" Where {each} costs {plural(at, 'step')} more, it takes fewer steps than the loop in order"
    return told + (f"; at higher costs, up to {MOST_TRIED}, it doesn't{unknown}." if at < MOST_TRIED
                   else ", and no higher cost was tried.")


# What is told of further runs, one behind the other: what may help, and what may cost
FURTHER: list[Callable[[Findings], str]] = [allowed_words, wait_words, apart_words, held_words,
                                                dearest_words]


# --- What holds it back ------------------------------------------------------

def at(losses: Losses, pc: int) -> str:
    """An instruction's line in the source, or its address."""
    return losses.image.sources.get(pc) or f"{pc:08x}"


def met_at(losses: Losses, violations: list[Violation]) -> str:
    """Where two accesses met, where that is at most four places."""
    places = sorted({one.first for one in violations if one.kind == "true" and one.first is not None})
    return f" at {places_listed([losses.image.name_of(place) for place in places])}" if 0 < len(places) <= 4 else ""


def pair_sentence(losses: Losses, pair: Blamed, violations: list[Violation], is_told: bool) -> str:
    """What two instructions lost, and what may help, unless it is told what their dependence looks like."""
    store, load, full = pair
    if full:
        what = f"{at(losses, store)} asks for a line that {at(losses, load)} holds in a full buffer"
    else:
        what = f"the store at {at(losses, store)} hits the load at {at(losses, load)}{met_at(losses, violations)}"
    helps = "" if is_told else f": it usually helps to {advice(losses, violations)}"
    return f" {plural(sum(one.lost for one in violations), 'instruction')} where {what}{helps}."


def heaviest(violations: list[Violation]) -> str:
    """The kind that lost most."""
    return max(KINDS, key=lambda kind: sum(one.lost for one in violations if one.kind == kind))


def lost(losses: Losses, told_before: set[Blamed], flowing: tuple[int, int] | None) -> str:
    """The rollbacks by their kinds, and the pairs of instructions that lost most, with what may help; nothing where all
    that is to say was told before. `flowing` is the pair whose dependence is told."""
    pairs = [(pair, violations) for pair, violations in losses.pairs if pair not in told_before
             or heaviest(violations) != "true"]
    if losses.pairs and not pairs:
        return ""
    counts: dict[str, int] = {}
    for violation in losses.violations:
        counts[violation.kind] = counts.get(violation.kind, 0) + 1
    kinds = [f"{count} by {KINDS[kind]}" for kind, count in sorted(counts.items(), key=lambda one: -one[1])]
    count = len(losses.violations)
    told = (kinds[0].replace(" by", f" rollback{'s' * (count > 1)} by") if len(kinds) == 1
            else f"{plural(count, 'rollback')}, {listed(kinds)},")
    told += f" lost {plural(losses.lost, 'instruction')}."
    for pair, violations in pairs[:MOST_PAIRS]:
        is_told = flowing == (pair.causer, pair.victim) and heaviest(violations) in ("true", "silent")
        told += pair_sentence(losses, pair, violations, is_told)
        told_before.add(pair)
    return told


def waits(losses: Losses) -> dict[str, str]:
    """Of each cause of waiting what it is, and what usually helps."""
    machine = losses.machine
    return {
        "nothomefree": "wait until the epochs before them have committed: it usually helps to give each epoch about as "
                       "much work",
        "noway": f"wait for a way in a full set: it usually helps to use fewer than {machine.ways + 1} lines in one "
                 f"epoch whose addresses are the same modulo {machine.sets * machine.line}",
        "orbfull": "wait for room in their own buffer: it usually helps to store in one epoch to fewer lines that "
                   f"other epochs use; the buffer holds {machine.buffer}",
        "orbbusy": "wait for another core's buffer: it usually helps to store to fewer lines that several epochs use",
    }


@dataclass
class Told:
    """What was told of the run before: a run's sentences don't say it again."""
    pairs: set[Blamed]
    causes: set[str]
    flowing: tuple[int, int] | None = None      # the store and the load whose dependence in order was told


def holding(run: Gain, losses: Losses, before: Told, chunk: str = "") -> list[str]:
    """What holds a run back, what takes most steps first: a sentence each. `chunk` stands behind what is lost."""
    def share(name: str) -> float:
        return percent(run.count(name), run)

    parts = [("lost", lost(losses, before.pairs, before.flowing)
              + chunk)] if losses.violations and share("lost") >= LEAST else []
    parts = [one for one in parts if one[1]]
    parts += [(cause, f"In {share(cause):.0f} % of the steps cores {told}.") for cause, told in waits(losses).items()]
    parts.append(("dropped", f"{share('dropped'):.0f} % of the steps are of epochs that the loop's exit "
                             "cancelled, or the end cut off."))
    parts = sorted(parts, key=lambda one: -run.count(one[0]))
    parts.append(("idle", f"In {share('idle'):.0f} % of the steps cores have no epoch: the loop has "
                          f"{losses.image.epochs:,}; it usually helps to have more, or shorter "
                          "ones."))
    kept = [(cause, told) for cause, told in parts if share(cause) >= LEAST and cause not in before.causes]
    before.causes |= {cause for cause, _ in kept} - {"lost"}
    return [told for _, told in kept]


def chunk_words(found: Findings) -> str:
    """What is proposed where neighbours of an array share lines, and what was measured."""
    chunk, measured = found.chunk, found.measured
    if chunk is None:
        return ""
    maker = maker_of(found.over_caches.image)
    told = (f" Of these, {chunk.lost:,} of {plural(chunk.of, 'instruction')} were lost where epochs use neighbours in "
            f"{chunk.array}, {plural(chunk.apart, 'byte')} apart, that "
            f"share lines of {found.over_caches.machine.line} bytes: it usually helps to give an epoch "
            f"{chunk.size} iterations, as {maker} --chunk {chunk.size} does")
    if measured is None:
        return told + f"; behind -- the words of {maker} have it measured."
    if measured.caches.full or measured.caches.gain is None:
        return told + "; measured so, its history is full."
    told += (f". Measured so, it takes {measured.caches.steps:,} steps and not {found.caches.steps:,}, a gain of "
             f"{measured.caches.gain:.2f}")
    return told + ("." if measured.caches.count("steps") < found.caches.count("steps") else ": it doesn't help here.")


def paragraph(found: Findings) -> str:
    """The verdict, without the limits: what holds the loop back over the plain store first, since caches may hide it,
    and then what the caches add."""
    pair = earliest(found.flow, found.caches.cores) if found.flow else None
    before = Told(set(), set(), (pair.store, pair.load) if pair else None)
    plain = holding(found.plain, found.over_plain, before) if found.over_plain is not None else []
    caches = holding(found.caches, found.over_caches, before, chunk_words(found))
    head = gained(found) + ("" if found.flow is None
                            else f" {flow(found.over_caches.image, found.flow, found.caches.cores)}")
    head += "".join(words(found) for words in FURTHER)
    if not plain and not caches:
        return f"{head} Nothing holds it back."
    told = [f"What holds it back over a plain store already: {' '.join(plain)}"] if plain else []
    told += [f"What {'the caches add' if plain else 'holds it back'}: {' '.join(caches)}"] if caches else []
    losses = [one for one in (found.over_plain, found.over_caches) if one]
    lines = ([] if found.over_caches.image.sources or not any(one.violations for one in losses)
             else ["An image made with -g names the lines of the source."])
    return " ".join([head, *told, *lines, "What helps is advice, and no claim."])


def faulted(name: str, losses: Losses, report: Report) -> str:
    """What is told of a loop that ends in a fault."""
    pc, cause = report.pc or 0, report.cause or 0
    lines = losses.image.sources
    before = max((one for one in lines if one <= pc), default=None) if pc < len(losses.image.code) else None
    place = (f"at {lines[pc]}, {pc:08x}" if pc in lines else f"at {pc:08x}"
             + (f", behind {lines[before]}" if before is not None else ""))
    return (f"{name} ends in a fault: end fault {report.epoch} {cause}: epoch {report.epoch} stops {place}, with cause "
            f"{cause}, {CAUSES.get(cause, 'which has no name')}. "
            "What it would gain isn't told.")


def past(found: Findings, most_lost: float | None, least_gain: float | None) -> list[str]:
    """The limits that the loop is past."""
    share, gain = percent(found.caches.count("lost"), found.caches), found.caches.gain
    told = ([f"{share:.1f} % of the steps are lost, more than {most_lost:g} %"] if most_lost is not None
            and share > most_lost else [])
    if least_gain is not None and (gain is None or gain < least_gain):
        gains = "nothing that is known" if gain is None else f"{gain:.2f}"
        told.append(f"it gains {gains}, less than {least_gain:.2f}")
    return told
