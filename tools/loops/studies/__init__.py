"""Studies: many runs of many loops, a job each, put together as tables and a page."""
