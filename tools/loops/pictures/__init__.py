"""Pictures of runs, from an image, a trace and the report of `why`."""
