"""From a program in C or C++, as it is, to the images of its loops: what tools/loops-of does."""
