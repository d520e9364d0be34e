"""AES, its modes, MACs, AEADs and the random words, written from their standards, for comparison alone."""

import functools
import hashlib
import hmac


def _field_product(a, b):
    """The product in GF(2^8) (FIPS 197, 4.2)."""
    product = 0
    while b:
        if b & 1:
            product ^= a
        a = a << 1 ^ (0x11B if a & 0x80 else 0)
        b >>= 1
    return product


def _s_box():
    """SubBytes as a table (FIPS 197, 5.1.1)."""
    inverse = [next((y for y in range(256) if _field_product(x, y) == 1), 0) for x in range(256)]
    rotated = lambda b, n: (b << n | b >> (8 - n)) & 0xFF
    return [b ^ rotated(b, 1) ^ rotated(b, 2) ^ rotated(b, 3) ^ rotated(b, 4) ^ 0x63 for b in inverse]


S_BOX = _s_box()
INVERSE_S_BOX = [S_BOX.index(b) for b in range(256)]
PRODUCTS = {factor: [_field_product(factor, b) for b in range(256)] for factor in (1, 2, 3, 9, 11, 13, 14)}


def xored(a, b):
    return bytes(x ^ y for x, y in zip(a, b))


@functools.lru_cache(maxsize=256)  # scripts use a key more than once
class Aes:
    """The block cipher (FIPS 197), a block in columns."""

    def __init__(self, key):
        words = [key[i : i + 4] for i in range(0, len(key), 4)]
        count, constant = len(words), 1
        while len(words) < 4 * (count + 7):
            word = words[-1]
            if len(words) % count == 0:
                word = bytes(S_BOX[b] for b in word[1:] + word[:1])
                word = bytes([word[0] ^ constant]) + word[1:]
                constant = PRODUCTS[2][constant]
            elif count > 6 and len(words) % count == 4:
                word = bytes(S_BOX[b] for b in word)
            words.append(xored(words[-count], word))
        self.round_keys = [b"".join(words[i : i + 4]) for i in range(0, len(words), 4)]

    @staticmethod
    def _mixed(block, factors):
        column_byte = lambda c, r: 4 * c + r
        return bytes(
            PRODUCTS[factors[0]][block[column_byte(c, r)]]
            ^ PRODUCTS[factors[1]][block[column_byte(c, (r + 1) % 4)]]
            ^ PRODUCTS[factors[2]][block[column_byte(c, (r + 2) % 4)]]
            ^ PRODUCTS[factors[3]][block[column_byte(c, (r + 3) % 4)]]
            for c in range(4)
            for r in range(4)
        )

    def encrypt(self, block):
        block = xored(block, self.round_keys[0])
        for number, round_key in enumerate(self.round_keys[1:], 1):
            block = bytes(S_BOX[block[(4 * (i // 4) + 5 * (i % 4)) % 16]] for i in range(16))
            if number < len(self.round_keys) - 1:
                block = self._mixed(block, (2, 3, 1, 1))
            block = xored(block, round_key)
        return block

    def decrypt(self, block):
        block = xored(block, self.round_keys[-1])
        for number in range(len(self.round_keys) - 2, -1, -1):
            block = bytes(INVERSE_S_BOX[block[(4 * (i // 4) - 3 * (i % 4)) % 16]] for i in range(16))
            block = xored(block, self.round_keys[number])
            if number:
                block = self._mixed(block, (14, 11, 13, 9))
        return block


def blocks_of(text):
    return [text[i : i + 16] for i in range(0, len(text), 16)]


def filled(text):
    """The text with zeros up to a whole block."""
    return text + bytes(-len(text) % 16)


# Modes of operation (SP 800-38A) and padding (PKCS#7)


def ctr(key, vector, text):
    cipher, first = Aes(key), int.from_bytes(vector, "big")
    counter_block = lambda i: ((first + i) % 2**128).to_bytes(16, "big")
    return b"".join(xored(block, cipher.encrypt(counter_block(i))) for i, block in enumerate(blocks_of(text)))


def ecb_encrypt(key, text):
    cipher = Aes(key)
    return b"".join(cipher.encrypt(block) for block in blocks_of(text))


def ecb_decrypt(key, text):
    cipher = Aes(key)
    return b"".join(cipher.decrypt(block) for block in blocks_of(text))


def cbc_encrypt(key, vector, text):
    cipher, out = Aes(key), [vector]
    for block in blocks_of(text):
        out.append(cipher.encrypt(xored(block, out[-1])))
    return b"".join(out[1:])


def cbc_decrypt(key, vector, text):
    cipher, before = Aes(key), [vector, *blocks_of(text)]
    return b"".join(xored(cipher.decrypt(block), last) for block, last in zip(before[1:], before))


def padded(text):
    count = 16 - len(text) % 16
    return text + bytes([count]) * count


def unpadded(text):
    """The text without its padding, or None where none ends it."""
    count = text[-1]
    return text[:-count] if 1 <= count <= 16 and text.endswith(bytes([count]) * count) else None


# Hashes, MACs and derivations


def hashed(name, message):
    return hashlib.new(name, message).digest()


def hmac_of(name, key, message):
    return hmac.new(key, message, name).digest()


def cmac(key, message):
    """SP 800-38B."""
    cipher = Aes(key)
    doubled = lambda n: (n << 1) % 2**128 ^ (0x87 if n >> 127 else 0)
    subkey = doubled(int.from_bytes(cipher.encrypt(bytes(16)), "big"))
    blocks = blocks_of(message) or [b""]
    if len(blocks[-1]) < 16:
        blocks[-1], subkey = filled(blocks[-1] + b"\x80"), doubled(subkey)
    blocks[-1] = xored(blocks[-1], subkey.to_bytes(16, "big"))
    chain = bytes(16)
    for block in blocks:
        chain = cipher.encrypt(xored(chain, block))
    return chain


def hkdf(name, salt, secret, info, count):
    """RFC 5869."""
    key = hmac_of(name, salt or bytes(hashlib.new(name).digest_size), secret)
    block, out, number = b"", b"", 1
    while len(out) < count:
        block = hmac_of(name, key, block + info + bytes([number]))
        out, number = out + block, number + 1
    return out[:count]


def pbkdf2(name, password, salt, cost, count):
    return hashlib.pbkdf2_hmac(name, password, salt, cost, count) if count else b""


# Authenticated encryption: each gives the text turned the other way, and the whole tag


def gcm(key, nonce, data, text, decrypts):
    """SP 800-38D, 7.1 and 7.2."""
    cipher = Aes(key)
    subkey = int.from_bytes(cipher.encrypt(bytes(16)), "big")

    def product(x):
        total, y = 0, subkey
        for i in range(127, -1, -1):
            total ^= y if x >> i & 1 else 0
            y = y >> 1 ^ (0xE1 << 120 if y & 1 else 0)
        return total

    def ghash(message):
        state = 0
        for block in blocks_of(message):
            state = product(state ^ int.from_bytes(block, "big"))
        return state.to_bytes(16, "big")

    lengths = lambda a, b: (8 * a).to_bytes(8, "big") + (8 * b).to_bytes(8, "big")
    first = nonce + b"\0\0\0\1" if len(nonce) == 12 else ghash(filled(nonce) + lengths(0, len(nonce)))
    counter = int.from_bytes(first[12:], "big")
    out = b"".join(
        xored(block, cipher.encrypt(first[:12] + ((counter + i) % 2**32).to_bytes(4, "big")))
        for i, block in enumerate(blocks_of(text), 1)
    )
    ciphertext = text if decrypts else out
    state = ghash(filled(data) + filled(ciphertext) + lengths(len(data), len(ciphertext)))
    return out, xored(state, cipher.encrypt(first))


def ccm(key, nonce, data, text, tag_length, decrypts):
    """SP 800-38C with the formats of its appendix A."""
    cipher, width = Aes(key), 15 - len(nonce)
    counter_block = lambda i: cipher.encrypt(bytes([width - 1]) + nonce + i.to_bytes(width, "big"))
    out = b"".join(xored(block, counter_block(i)) for i, block in enumerate(blocks_of(text), 1))
    payload = out if decrypts else text
    flags = 64 * bool(data) + 8 * ((tag_length - 2) // 2) + width - 1
    message = bytes([flags]) + nonce + len(payload).to_bytes(width, "big")
    if data:
        short = len(data) < 65280
        message += filled((len(data).to_bytes(2, "big") if short else b"\xff\xfe" + len(data).to_bytes(4, "big")) + data)
    chain = bytes(16)
    for block in blocks_of(message + filled(payload)):
        chain = cipher.encrypt(xored(chain, block))
    return out, xored(chain, counter_block(0))


# Random words


@functools.lru_cache(maxsize=256)  # a stream draws many times from one block
def chacha20_block(seed, number, stream):
    """A block of ChaCha20: RFC 8439's, with a counter and a stream number of 64 bits."""
    words = lambda text: [int.from_bytes(text[i : i + 4], "little") for i in range(0, len(text), 4)]
    start = words(b"expand 32-byte k" + seed + number.to_bytes(8, "little") + stream.to_bytes(8, "little"))
    state = start[:]

    def quarter_round(a, b, c, d):
        for target, other, mixed, turn in ((a, b, d, 16), (c, d, b, 12), (a, b, d, 8), (c, d, b, 7)):
            state[target] = (state[target] + state[other]) % 2**32
            value = state[mixed] ^ state[target]
            state[mixed] = (value << turn | value >> (32 - turn)) % 2**32

    for _ in range(10):
        for i in range(4):
            quarter_round(i, 4 + i, 8 + i, 12 + i)
        for i in range(4):
            quarter_round(i, 4 + (i + 1) % 4, 8 + (i + 2) % 4, 12 + (i + 3) % 4)
    return b"".join(((a + b) % 2**32).to_bytes(4, "little") for a, b in zip(state, start))


def random_bytes(seed, stream, place, count):
    """So many bytes of a stream from a word on."""
    last = place + (count + 3) // 4
    text = b"".join(chacha20_block(seed, i, stream) for i in range(place // 16, last // 16 + 1))
    return text[4 * (place % 16) :][:count]
