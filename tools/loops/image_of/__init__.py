"""From sources, objects and linked files to the text of an image: what tools/image-of does."""
