"""The bytes of an ephemeris book, document 01, "The ephemeris book"."""
import struct

LIMIT = 61440
NUMBERS = {'moon': 2, 'sun': 3, 'venus': 4, 'mars': 5, 'jupiter': 6}


def size(counts):
    """The length of a book whose entries have these numbers of coefficients for each component."""
    return 8 + sum(24 + 24 * count for count in counts)


def book(entries):
    """The book of entries (body's name, start, span, blocks of X, Y, Z), which ascend by body and start."""
    counts = [len(blocks[0]) for *_, blocks in entries]
    contents, floats, offset = b'', b'', 8 + 24 * len(entries)
    for (name, start, span, blocks), count in zip(entries, counts):
        contents += struct.pack('<HHIQQ', NUMBERS[name], count, offset, start, span)
        floats += b''.join(struct.pack(f'<{count}d', *block) for block in blocks)
        offset += 24 * count
    return struct.pack('<II', offset, len(entries)) + contents + floats
