"""What write_tape and show_tape both know of a tape: its commands by name, and where each begins and ends."""

LONGEST = 65536  # a longer tape is answered by 04 alone
# by name: the command's byte, how many numbers follow (n and l), and how many bytes follow these
COMMANDS = {"key": (0x01, 2, 128), "encipher": (0x03, 0, 64), "decipher": (0x04, 0, 64), "mix": (0x05, 0, 8)}
NAME = {byte: name for name, (byte, _, _) in COMMANDS.items()}
WIDTH = {byte: 1 + numbers + width for byte, numbers, width in COMMANDS.values()}


class Fault(Exception):
    pass


def commands(tape):
    """The commands of a tape, to the one that ends it: 00, an unknown one, what is left of one cut short, or nothing where none came."""
    at = 0
    while True:
        width = WIDTH.get(tape[at], 1) if at < len(tape) else 1
        found = tape[at : at + width]
        yield found
        if len(found) < width or found[0] not in NAME:
            return
        at += width
