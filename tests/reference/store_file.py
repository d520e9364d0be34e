"""The store file, written from its format, for comparison alone."""

import struct

from service import AES_KEY, CELL_COUNT, LAST_PERSISTENT, PERSISTENT, SIGN, SIGN_HASH, TYPES, USAGES, VERIFY, VERIFY_HASH, Key

NAME, CURRENT, LAYOUT_AT = b"PSASTORE", 2, 8
HEADER = NAME + bytes([CURRENT]) + bytes(55)
CELL_LENGTH = 1088
STORE_LENGTH = len(HEADER) + CELL_COUNT * CELL_LENGTH
OLDER_HEADER, OLDER_COUNT = NAME + b"\1" + bytes(55), 512  # of the older layout, as it was written
OLDER_LENGTH = len(HEADER) + OLDER_COUNT * CELL_LENGTH
OPEN = 0xA5
RECORD_AT, KEY_AT = 16, 52  # in a cell
MAGIC, RECORD = b"PSA\0KEY\0", struct.Struct("<8sIIHHIIII")
NO_STORE = "not a store"


def place_of(number):
    """Where a cell begins in the file."""
    return len(HEADER) + number * CELL_LENGTH


def record(key):
    head = RECORD.pack(MAGIC, 0, key.lifetime, key.key_type, key.bits, key.usage, *key.algorithms, len(key.data))
    return head + key.data


def cell(key):
    """A key's cell, or that of no key."""
    if key is None:
        return bytes(CELL_LENGTH)
    front = bytes([OPEN, 0, 0, 0]) + key.identifier.to_bytes(4, "little") + bytes(8)
    return (front + record(key)).ljust(CELL_LENGTH, b"\0")


def key_of(bytes_of_cell):
    """The key of an open cell, or None where its bytes are those of no key."""
    _, _, lifetime, key_type, bits, usage, *algorithms, length = RECORD.unpack_from(bytes_of_cell, RECORD_AT)
    identifier = int.from_bytes(bytes_of_cell[4:8], "little")
    data = bytes_of_cell[KEY_AT : KEY_AT + length]
    key = Key(lifetime, identifier, 0, key_type, bits, usage, tuple(algorithms), data)
    implies = lambda flag, other: not usage & flag or usage & other
    is_key = lifetime == PERSISTENT and 1 <= identifier <= LAST_PERSISTENT and key_type in TYPES and bits == 8 * length
    is_key &= length in (16, 24, 32) if key_type == AES_KEY else 1 <= length <= 1024
    is_key &= not usage & ~USAGES and bool(implies(SIGN_HASH, SIGN) and implies(VERIFY_HASH, VERIFY))
    return key if is_key and cell(key) == bytes_of_cell else None


def with_bytes(whole, place, piece):
    return whole[:place] + piece + whole[place + len(piece) :]


def padded(cells):
    """The cells of a store whose first cells are these, and in which no other has a key."""
    return [*cells, *[None] * (CELL_COUNT - len(cells))]


def image(cells):
    """The file of a store whose first cells are these."""
    return HEADER + b"".join(map(cell, padded(cells)))


def older_image(cells, behind=b"", header=OLDER_HEADER):
    """The file of a store of the older layout whose first cells are these, with these bytes behind its cells."""
    return header + b"".join(map(cell, cells)).ljust(OLDER_LENGTH - len(header), b"\0") + behind


def cells_in(content):
    """How many cells a file has, by its header and its length; or None where it is no store."""
    header = content[: len(HEADER)]
    if len(header) < len(HEADER) or not header.startswith(NAME) or any(header[LAYOUT_AT + 1 :]):
        return None
    if header[LAYOUT_AT] == CURRENT:
        return CELL_COUNT if len(content) == STORE_LENGTH else None
    return OLDER_COUNT if OLDER_LENGTH <= len(content) <= STORE_LENGTH else None


def opened(content):
    """What an opening finds in the cells of a file, or the line that refuses it."""
    cells, found = [], set()
    for number in range(cells_in(content) or 0):
        at, key = place_of(number), None
        if content[at] == OPEN:
            key = key_of(content[at : at + CELL_LENGTH])
            if key is None or key.identifier in found:
                return f"damaged cell {number}"
            found.add(key.identifier)
        cells.append(key)
    return padded(cells) if cells else NO_STORE


def cells_of_file(path):
    """The bytes of each cell of a store's file."""
    with open(path, "rb") as file:
        whole = file.read()
    if len(whole) != STORE_LENGTH or not whole.startswith(HEADER):
        raise ValueError("the store's file has lost its header or its length")
    return [whole[at : at + CELL_LENGTH] for at in range(len(HEADER), len(whole), CELL_LENGTH)]


def require_file(path, cells):
    """Raises a ValueError where a store's file isn't that of these cells."""
    with open(path, "rb") as file:
        if file.read() != image(cells):
            raise ValueError("the store's file is another one")
