"""What epochs need of one another in order, and whether anything can roll back at all, in English: from what `depends`
prints."""

from loops import Dependences, Image, Joined, OverStore
from loops.pictures.words import listed, plural

from .registers import Way, is_at_once, way_of

# Pairs that have fewer than a so many-th of the heaviest one's dependences aren't told; one that so many hundredths of
# the epochs have is one of each.
RARE, EACH = 10, 80


# --- Whether anything can roll back -----------------------------------------

def name_of(told: OverStore) -> str:
    return "a plain store of bytes" if told.store == "plain" else "caches"


def can_roll_back(told: OverStore) -> str:
    """What is told of one store, as the end of a sentence."""
    if told.verdict == "never":
        return f"over {name_of(told)} none on up to {plural(told.cores, 'core')} does (proved)"
    if told.verdict == "from":
        return f"over {name_of(told)} a schedule rolls it back from {told.cores} cores on"
    return f"over {name_of(told)} epochs conflict from {told.cores} cores on, but no schedule that rolls back is known"


def rolls_back(found: Dependences) -> str:
    """Whether anything can roll back: one sentence on all stores."""
    caches, plain = next((one for one in found.stores if one.store != "plain"), None), found.over("plain")
    if caches is not None and caches.verdict == "never":
        return f"No schedule on up to {plural(caches.cores, 'core')} can roll this loop back (proved)."
    if caches is not None and plain is not None and caches.verdict == plain.verdict == "from":
        further = "too" if caches.cores == plain.cores else f"from {plain.cores}"
        return (f"A schedule rolls it back over caches from {caches.cores} cores on, and over a plain store of bytes "
                f"{further}.")
    said = "; ".join(can_roll_back(one) for one in (caches, plain) if one is not None)
    return f"{said[:1].upper()}{said[1:]}."


# --- The dependence that begins earliest ---------------------------------------

def earliness(pair: Joined) -> tuple[float, int]:
    """How early a dependence begins: the earlier it is loaded, the later it is stored and the fewer epochs lie between,
    the more."""
    return (1 + pair.stored.share - pair.loaded.share) / pair.least_distance, pair.times


def earliest(found: Dependences, cores: int) -> Joined | None:
    """Of the pairs of instructions that so many cores run beside each other that which begins earliest; rare ones don't
    count."""
    near = [pair for pair in found.pairs if pair.least_distance < cores]
    heavy = [pair for pair in near if RARE * pair.times >= max(one.times for one in near)]
    return max(heavy, key=earliness) if heavy else None


def is_of_one_word(pair: Joined) -> bool:
    return pair.at.length <= 4


def is_in_each(image: Image, pair: Joined) -> bool:
    """Whether nearly each epoch has the dependence."""
    return 100 * pair.times >= EACH * (image.epochs - 1)


def is_constant(pair: Joined) -> bool:
    return pair.least_distance == pair.most_distance


def places(image: Image, pair: Joined) -> str:
    """The variables from the lowest byte of the dependences to the highest, or the addresses."""
    first, length = pair.at.first, pair.at.length
    if is_of_one_word(pair):
        return image.name_of(first)
    return listed([one.name for one in image.variables_in(first, length)]) or f"{first:08x} to {first + length - 1:08x}"


def of_one_word(image: Image, pair: Joined, found: Dependences) -> str | None:
    """What a word that each epoch reads looks like, by how its value gets from one epoch to the next; or None."""
    where = image.name_of(pair.at.first)
    alike = [one for one in found.pairs if (one.store, one.at.first) == (pair.store, pair.at.first) and one is not pair]
    way = way_of(image, pair.load, pair.store)
    if not is_constant(pair):
        return (f"Each epoch reads {where}, and some change it: where it is a greatest, a least or the like, it "
                "usually helps to let each epoch keep its "
                "own and put them together at the end")
    if pair.least_distance > 1 or all(way_of(image, one.load, one.store) is Way.NONE for one in [pair, *alike]):
        return None
    return f"It looks like {kind_of_word(image, pair, way, where)}"


def kind_of_word(image: Image, pair: Joined, way: Way, where: str) -> str:
    """What a word looks like of which each epoch makes the next one's."""
    apart, repeats = pair.stored.share - pair.loaded.share, pair.stored.done - pair.loaded.done > pair.store - pair.load
    if way is Way.LOADED and pair.stored.share <= 0.5:
        return (f"the walk of a list: each epoch finds in {where}, near its start, where the next one begins; it "
                "usually helps to put what the list names into "
                "an array before the loop")
    if way is not Way.NONE and pair.stored.share <= 0.5:
        return (f"an induction: each epoch changes {where} near its start; it usually helps to compute it from the "
                "epoch's number")
    if way is Way.COMPUTED and (is_at_once(image, pair.load, pair.store)
                                or (pair.loaded.share >= 0.5 and apart <= 0.25)):
        when = "again and again" if repeats else "at its end"
        return (f"a reduction: each epoch changes {where} {when}; it usually helps to let each epoch keep its own and "
                "put them together at the end")
    return (f"a recurrence: each epoch reads {where} early and changes it late; it usually helps to change it as soon "
            "as it is read, or to compute it from the "
            "epoch's number, where that gives it")


def shape(image: Image, pair: Joined, found: Dependences) -> str:
    """What kind of dependence it looks like, and what usually helps."""
    told = of_one_word(image, pair, found) if is_of_one_word(pair) and is_in_each(image, pair) else None
    if told is not None:
        return told
    if is_constant(pair):
        before = "the one before it" if pair.least_distance == 1 else f"the one {pair.least_distance} before it"
        return (f"It looks like a recurrence: an epoch needs what {before} makes; it usually helps to load it later, "
                "or to store it earlier")
    return (f"It joins epochs {pair.least_distance} to {pair.most_distance} apart, as where data decide: speculation "
            "pays as far as it is rare; else it usually "
            "helps to load it later, or to store it earlier")


def spelled(image: Image, pc: int) -> str:
    """An instruction's line in the source, or its address."""
    return image.sources.get(pc) or f"{pc:08x}"


def sentence(image: Image, pair: Joined, found: Dependences) -> str:
    """A dependence, and what usually helps."""
    stored, loaded = pair.stored, pair.loaded
    return (f"What an epoch needs earliest of another: the load at {spelled(image, pair.load)} reads, after "
            f"{loaded.done:,} of {plural(loaded.of, 'instruction')}, "
            f"what the store at {spelled(image, pair.store)} left after {stored.done:,} of {stored.of:,}, "
            f"{plural(pair.first_victim - pair.first_causer, 'epoch')} "
            f"before; {plural(pair.times, 'time')} in all, at {places(image, pair)}. {shape(image, pair, found)}.")


def flow(image: Image, found: Dependences, cores: int) -> str:
    """What is told of a loop on so many cores."""
    told = rolls_back(found)
    pair = earliest(found, cores)
    if pair is not None:
        return f"{told} {sentence(image, pair, found)}"
    if found.pairs:
        least = min(one.least_distance for one in found.pairs)
        return (f"{told} What epochs need of one another is at least {plural(least, 'epoch')} apart, so it holds "
                "nothing back on up to "
                f"{plural(min(least, cores), 'core')}.")
    if any(one.verdict == "from" for one in found.stores):
        return f"{told} In order no epoch reads what another one stores: what rolls back are lines that they share."
    return told
