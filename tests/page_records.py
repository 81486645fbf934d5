"""Page records for the tests, written from document 02, Job 9, alone: laid out from their parts and read command by command; the catalogue reader, and the
writer and the keyed reader over ciphers with blocks of 16 bytes. CBC and CMAC are the archivists' program's, the numbers those of papers.py."""
import collections
import functools
import os
import sys

sys.dont_write_bytecode = True
sys.path.insert(0, os.path.join(os.path.dirname(os.path.abspath(__file__)), "archivists"))
import archivists_sets
import modes
import papers

Page = collections.namedtuple("Page", "number day title start sealed tag")


@functools.lru_cache(None)
def under(words):
    return archivists_sets.under(1, words)


@functools.lru_cache(None)
def mapped(way, tables, words, block):
    with archivists_sets.with_set(*tables):
        return getattr(under(words), way)(block)


class Cipher:
    """The archivists' cipher at n = 1 by a set's tables, under the 64 bytes of a working key's words, however they were made. No block is mapped twice:
    their program is slow."""

    block_size = 16

    def __init__(self, tables, words):
        self.encrypt_block, self.decrypt_block = (functools.partial(mapped, way, tables, words) for way in ("encrypt_block", "decrypt_block"))


def command(kind, operand):
    byte, width = kind
    if len(operand) != width:
        raise ValueError(f"the operand of {byte:02X} has {width} bytes, not {len(operand)}")
    return bytes([byte]) + operand


def operand(record, at, kind):
    """Of a command that stands there whole; else None."""
    byte, width = kind
    return record[at + 1 : at + 1 + width] if len(record) > at + width and record[at] == byte else None


class Records:
    """Each rule in a place of its own, so that a wrong one can stand in for it."""

    head, block, end, blocks = papers.PAGE_HEAD, papers.PAGE_BLOCK, papers.PAGE_TAG, papers.PAGE_BLOCKS
    writing, reading = staticmethod(papers.page_writing), staticmethod(papers.page_reading)
    order = "little"  # of a number's bytes: 'lowest byte first'
    title_at = 11  # behind 10 with 4 bytes, 11 with 4 bytes, and 12

    # ---- the layout

    def front(self, page):
        """'All bytes before 1F'."""
        operands = page.number.to_bytes(4, self.order), page.day.to_bytes(4, self.order), page.title, page.start
        sealed = [page.sealed[at : at + 16] for at in range(0, len(page.sealed), 16)]
        return b"".join([*map(command, self.head, operands), *(command(self.block, one) for one in sealed)])

    def layout(self, page):
        return self.front(page) + command(self.end, page.tag)

    def parts(self, record):
        """The page, or None for 'any other layout'."""
        at, operands, sealed = 0, [], []
        for kind in self.head:
            operands.append(operand(record, at, kind))
            at += 1 + kind[1]
        while len(sealed) < self.blocks[-1] and operand(record, at, self.block) is not None:
            sealed.append(operand(record, at, self.block))
            at += 1 + self.block[1]
        tag = operand(record, at, self.end)
        if None in operands or tag is None or len(record) != at + 1 + self.end[1]:
            return None
        number, day, title, start = operands
        return Page(int.from_bytes(number, self.order), int.from_bytes(day, self.order), title, start, b"".join(sealed), tag)

    # ---- the readers and the writer

    def catalogue(self, record):
        """The number, then the page's number, its day, its count of blocks, and where its title stands in the record."""
        page = self.parts(record)
        return (19, 0, 0, 0, 0) if page is None else (0, page.number, page.day, len(page.sealed) // 16, self.title_at)

    def seal(self, sealing, tagging, start, body):
        return modes.cbc_encrypt(sealing, start, body)

    def tag(self, sealing, tagging, page):
        return modes.cmac(tagging, self.front(page))

    def written(self, sealing, tagging, number, day, title, start, body):
        page = Page(number, day, title, start, self.seal(sealing, tagging, start, body), b"")
        return self.layout(page._replace(tag=self.tag(sealing, tagging, page)))

    def right(self, sealing, tagging, page):
        return self.tag(sealing, tagging, page) == page.tag

    def opened(self, sealing, tagging, page):
        return modes.cbc_decrypt(sealing, page.start, page.sealed)
