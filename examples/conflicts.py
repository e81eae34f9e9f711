"""What a trace lost to conflicts, and the instructions to blame: python3 examples/conflicts.py WHY < IMAGE_AND_TRACE"""
import sys

from loops import Programs, read_traced

text = sys.stdin.read()
image = read_traced(text).image
conflicts = Programs(why_command=sys.argv[1]).why(text)
print(conflicts.total.lost, "of", conflicts.total.lost + conflicts.total.useful, "instructions lost")
for pair in conflicts.pairs:
    met = f"{image.instruction_at(pair.causer)} hit {image.instruction_at(pair.victim)}"
    print(f"{met}: {pair.rollbacks} rollbacks, {pair.lost} lost")
