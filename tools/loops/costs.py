"""What turns cost, as one word says it: `bus=10`, `miss=20,line=20` or `bus=10,hold=10`."""

import re

# What is counted besides the one step of each turn, by the keys of `--costs`; `bus` stands for all of them
KEYS = ("miss", "upgrade", "begin", "restart", "commit", "line")
MOST_COST = 1_000_000
PAIR = re.compile(rf"({'|'.join((*KEYS, 'bus', 'hold'))})=(0|[1-9][0-9]{{0,6}})")
WANTED = (f"KEY=N,.. with the keys {', '.join(KEYS)}, or bus for all of these, and hold, each at most once, and N up "
          f"to {MOST_COST:,}")


class BadCosts(ValueError):
    """A word that says no costs; the words say what one is."""


def costs_words(word: str) -> list[str]:
    """The words by which `gain` and `replay` are asked for these costs: of the key `hold` a word of its own. BadCosts
    where it says none. This is where such a word is checked; the programs refuse the same."""
    pairs = [PAIR.fullmatch(one) for one in word.split(",")]
    asked = {pair[1]: pair[2] for pair in pairs if pair and int(pair[2]) <= MOST_COST}
    costs = [key for key in asked if key != "hold"]
    if len(asked) < len(pairs) or "bus" in costs and len(costs) > 1:
        raise BadCosts(f"{word!r} says no costs; such are {WANTED}")
    told = ["--costs", ",".join(f"{key}={asked[key]}" for key in costs)] if costs else []
    return told + (["--hold", asked["hold"]] if "hold" in asked else [])
