"""Key wrapping over the archivists' program, step by step. Its function keeps what stands between the steps to itself, so this is told from the blocks that
it hands its cipher: the block of step t + 1 is A and R_2 after step t, and what is R_(2 + j) then is R_2 j steps later."""
import os
import sys

sys.dont_write_bytecode = True
sys.path.insert(0, os.path.join(os.path.dirname(os.path.abspath(__file__)), "archivists"))
import modes


class Heard:
    """A cipher with blocks of 16 bytes, and the blocks that it was given to encipher."""

    block_size = 16

    def __init__(self, encipher, decipher=None):
        self.encipher, self.decrypt_block, self.blocks = encipher, decipher, []

    def encrypt_block(self, block):
        self.blocks.append(bytes(block))
        return self.encipher(block)


def states(encipher, key):
    """For each t from 0 on, A and R_2 to R_n after step t, as one string; the last is the wrapped key."""
    heard = Heard(encipher)
    wrapped, count = modes.kw_wrap(heard, key), len(key) // 8
    if len(heard.blocks) != 6 * count:
        raise SystemExit("archivists_wraps: the archivists' program has another number of steps")
    # R_2 before each step, then the semiblocks that are left at the end in their order
    seconds = [block[8:] for block in heard.blocks] + [wrapped[at : at + 8] for at in range(8, len(wrapped), 8)]
    firsts = [block[:8] for block in heard.blocks] + [wrapped[:8]]
    return [first + b"".join(seconds[t : t + count]) for t, first in enumerate(firsts)]
