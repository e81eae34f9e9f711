"""The tools: each module has the `main` of one, which is tools/NAME in the tree, and where the package is installed the
command loops-NAME; `loops_of` is loops-of in both."""
