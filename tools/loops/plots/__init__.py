"""Plots of what loops gain, from the lines that `gain` printed."""
