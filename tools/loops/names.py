"""Names that come from outside, from an ELF file, a source or an image, as they are written: into an image, a report or
a message."""

# Longer ones are cut: a name of C++ may have hundreds of characters.
MOST_CHARACTERS = 255
CUT = ".."


def escaped(character: str) -> str:
    """The bytes of a character, as `\\x0a`."""
    return "".join(f"\\x{byte:02x}" for byte in character.encode("utf-8", "surrogateescape"))


def word(name: str | bytes) -> str:
    """A name as one word of a line: printable, without blanks, and of at most so many characters; what else it has is
    written by its bytes."""
    text = name.decode("utf-8", "surrogateescape") if isinstance(name, bytes) else name
    made = "".join(one if one.isprintable() and one != " " else escaped(one)
                   for one in text[:MOST_CHARACTERS + 1]) or "?"
    return made if len(made) <= MOST_CHARACTERS else made[:MOST_CHARACTERS - len(CUT)] + CUT


def line(text: str) -> str:
    """A text as one line: what isn't printable is written by its bytes."""
    return "".join(one if one.isprintable() or one == "\t" else escaped(one) for one in text)
