"""Verdicts on loops: what one gains at even speed, and what holds it back, in English."""
