"""Bytes and names as text for people."""


def shown(name):
    """A name of a file, an element or a user. Controls, and bytes that aren't text, are escaped."""
    text = name.decode("utf-8", "backslashreplace") if isinstance(name, bytes) else str(name)
    if text.isprintable():
        return text
    return "".join(character if character.isprintable() else escaped(character)
                   for character in text)


def escaped(character):
    """The number of a character as an escape, or of a byte of a file name that isn't text."""
    number = ord(character)
    if 0xDC80 <= number <= 0xDCFF:
        return f"\\x{number - 0xDC00:02x}"
    return f"\\x{number:02x}" if number < 256 else f"\\u{{{number:x}}}"


def counted(number, word, plural=None):
    """A number with its noun: `1 element`, `12,000 elements`."""
    return f"{number:,} {word if number == 1 else plural or word + 's'}"


def write_out(text):
    """Writes the whole text to standard output, or raises the OSError that stopped it."""
    with open(1, "wb", closefd=False) as output:
        output.write(text.encode("utf-8", "backslashreplace"))


def fault_of(fault):
    """The name of a file or stream that failed, and why it failed."""
    place = shown(fault.filename) if fault.filename not in (None, 1) else "a standard stream"
    return f"{place}: {fault.strerror}"
