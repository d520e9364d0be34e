"""The one-thread store and its operations, for comparison alone."""

from dataclasses import dataclass, replace

import algorithms as alg
import primitives
from operations import FAMILIES, Refused, require

TYPES = {0x1001, 0x1100, 0x1200, 0x1203, 0x2400}
HMAC_KEY, DERIVE_KEY, AES_KEY = 0x1100, 0x1200, 0x2400
EXPORT, COPY, ENCRYPT, DECRYPT, SIGN, VERIFY, DERIVE = 1, 2, 0x100, 0x200, 0x400, 0x800, 0x4000
SIGN_HASH, VERIFY_HASH, USAGES = 0x1000, 0x2000, 0xFF07
FIRST_VOLATILE, LIVE_LIMIT = 0x40000000, 16
LAST_PERSISTENT, CELL_COUNT = 0x3FFFFFFF, 2048
VOLATILE, PERSISTENT, OF_THE_ELEMENT = 0, 1, 0x100  # the lifetimes that there are


def location(lifetime):
    return lifetime >> 8


@dataclass(frozen=True, eq=False)
class Key:
    """A creation; no two are equal."""

    lifetime: int
    identifier: int
    creator: int
    key_type: int
    bits: int
    usage: int
    algorithms: tuple  # the policy's two numbers
    data: bytes

    def is_in_the_element(self):
        return self.lifetime == OF_THE_ELEMENT


def narrowed(key, rules):
    """What the admission rules leave of a key that is to be created."""
    require("no-ecb" not in rules or alg.ECB not in key.algorithms, "NOT_PERMITTED")
    require("aes256" not in rules or key.key_type != AES_KEY or key.bits == 256, "NOT_PERMITTED")
    without = (EXPORT if "no-export" in rules else 0) | (COPY if "no-copy" in rules else 0)
    return replace(key, usage=key.usage & ~without)


class Service:
    """A run's store, from the keys in the cells of its file; None is a cell without a key."""

    def __init__(self, cells=(None,) * CELL_COUNT, seed=bytes(32), rules=()):
        self.cells, self.seed, self.rules = list(cells), seed, rules
        self.keys = {key.identifier: key for key in cells if key}
        self.made = {}
        self.drawn = {}
        self.operations = {}

    def call(self, session, command, fields):
        """Makes a call, and gives the bytes that it answers; Refused has its status."""
        method = getattr(self, command, None)
        if method:
            return method(session, fields)
        for family in FAMILIES:
            if command in family.setups:
                return self.set_up(session, command, fields, family)
        return self.step(session, command, fields)

    def named_keys(self, session):
        """The keys by the identifiers by which the session names them."""
        return self.keys

    def has_room(self, identifier):
        """Whether the file has room for a key of this identifier."""
        return None in self.cells

    def draw(self, session, count):
        place = self.drawn.get(session, 0)
        self.drawn[session] = place + (count + 3) // 4
        return primitives.random_bytes(self.seed, session, place, count)

    # Creations

    def create(self, session, fields, key_type, usage, bits, algorithms, count, data):
        """Adds a key of so many bytes, which `data` gives once nothing refuses the creation."""
        lifetime, identifier = fields.get("life", 0), fields.get("id", 0)
        require(lifetime in (VOLATILE, PERSISTENT, OF_THE_ELEMENT), "NOT_SUPPORTED")
        require(1 <= identifier <= LAST_PERSISTENT if lifetime == PERSISTENT else identifier == 0, "INVALID_ARGUMENT")
        require(not usage & ~USAGES, "INVALID_ARGUMENT")
        require(key_type in TYPES, "NOT_SUPPORTED")
        require(count in (16, 24, 32) if key_type == AES_KEY else 1 <= count <= 1024, "INVALID_ARGUMENT")
        require(bits in (0, 8 * count), "INVALID_ARGUMENT")
        usage |= (SIGN if usage & SIGN_HASH else 0) | (VERIFY if usage & VERIFY_HASH else 0)
        key = narrowed(Key(lifetime, identifier, session, key_type, 8 * count, usage, algorithms, b""), self.rules)
        if lifetime == PERSISTENT:
            require(identifier not in self.keys, "ALREADY_EXISTS")
            require(self.has_room(identifier), "INSUFFICIENT_STORAGE")
        else:
            live = [other for other in self.keys.values() if other.creator == session and other.lifetime != PERSISTENT]
            require(len(live) < LIVE_LIMIT, "KEY_LIMIT")
            number = self.made.get(session, 0)
            self.made[session] = number + 1
            identifier = FIRST_VOLATILE + (session << 20) + number
        key = replace(key, identifier=identifier, data=data())
        self.keys[identifier] = key
        if lifetime == PERSISTENT:
            self.cells[self.cells.index(None)] = key
        return identifier.to_bytes(4, "big")

    def import_(self, session, fields):
        data = fields["data"]
        return self.create(
            session,
            fields,
            fields["type"],
            fields["usage"],
            fields.get("bits", 0),
            alg.stated(fields),
            len(data),
            lambda: data,
        )

    def generate(self, session, fields):
        bits = fields["bits"]
        require(bits and bits % 8 == 0, "INVALID_ARGUMENT")
        drawn = lambda: self.draw(session, bits // 8)
        return self.create(
            session, fields, fields["type"], fields["usage"], bits, alg.stated(fields), bits // 8, drawn
        )

    def copy(self, session, fields):
        source = self.key(fields)
        require(source.usage & COPY, "NOT_PERMITTED")
        require(fields.get("type", 0) in (0, source.key_type), "INVALID_ARGUMENT")
        require(fields.get("bits", 0) in (0, source.bits), "INVALID_ARGUMENT")
        require(location(fields.get("life", 0)) == location(source.lifetime), "NOT_SUPPORTED")
        met = tuple(map(alg.meet, source.algorithms, alg.stated(fields)))
        require(None not in met, "INVALID_ARGUMENT")
        usage = fields["usage"] & source.usage
        return self.create(
            session, fields, source.key_type, usage, source.bits, met, len(source.data), lambda: source.data
        )

    # Calls on keys, and of whole messages

    def key(self, fields):
        require(fields["key"] in self.keys, "INVALID_HANDLE")
        return self.keys[fields["key"]]

    def check_class(self, number, kind):
        require(alg.class_of(number), "NOT_SUPPORTED")
        require(alg.class_of(number) == kind and alg.is_concrete(number), "INVALID_ARGUMENT")

    def usable_key(self, fields, kind, usage, is_whole=False):
        number, key = fields["alg"], self.key(fields)
        self.check_class(number, kind)
        require(key.usage & usage and alg.allows(key.algorithms, number), "NOT_PERMITTED")
        require(key.key_type == (HMAC_KEY if alg.base(number) in alg.HMACS else AES_KEY), "INVALID_ARGUMENT")
        # the secure element makes MACs and CTR, each in one call
        in_element = is_whole and (kind == "mac" or number == alg.CTR)
        require(in_element or not key.is_in_the_element(), "NOT_SUPPORTED")
        return key

    def derivation_key(self, fields, number):
        key = self.key(fields)
        require(key.usage & DERIVE and alg.allows(key.algorithms, number), "NOT_PERMITTED")
        return key

    def destroy(self, session, fields):
        if fields["key"]:
            key = self.key(fields)
            del self.keys[key.identifier]
            if key in self.cells:
                self.cells[self.cells.index(key)] = None
        return b""

    def purge(self, session, fields):
        self.key(fields)
        return b""

    def attributes(self, session, fields):
        key = self.key(fields)
        parts = ((key.lifetime, 4), (key.identifier, 4), (key.key_type, 2), (key.bits, 2))
        first, second = key.algorithms
        parts += ((key.usage, 4), (first, 4)) + (((second, 4),) if second else ())
        return b"".join(value.to_bytes(width, "big") for value, width in parts)

    def export(self, session, fields):
        key = self.key(fields)
        require(key.usage & EXPORT, "NOT_PERMITTED")
        require(not key.is_in_the_element(), "NOT_SUPPORTED")
        require(len(key.data) <= fields["room"], "BUFFER_TOO_SMALL")
        return key.data

    def hash_compute(self, session, fields):
        self.check_class(fields["alg"], "hash")
        require(alg.digest_length(fields["alg"]) <= fields["room"], "BUFFER_TOO_SMALL")
        return primitives.hashed(alg.hash_name(fields["alg"]), fields["data"])

    def hash_compare(self, session, fields):
        self.check_class(fields["alg"], "hash")
        digest = primitives.hashed(alg.hash_name(fields["alg"]), fields["data"])
        require(digest == fields["hash"], "INVALID_SIGNATURE")
        return b""

    def whole(self, session, fields, kind, usage, steps):
        """A call of a whole message as an operation of its family, once its key may be used."""
        family = next(it for it in FAMILIES if it.kind == kind)
        key = self.usable_key(fields, kind, usage, is_whole=True)
        operation = family(fields["alg"], key, usage in (ENCRYPT, SIGN))
        return steps(operation)

    def mac_compute(self, session, fields):
        def steps(operation):
            require(alg.tag_length(fields["alg"]) <= fields["room"], "BUFFER_TOO_SMALL")
            return operation.code(fields["data"])

        return self.whole(session, fields, "mac", SIGN, steps)

    def mac_verify(self, session, fields):
        def steps(operation):
            require(operation.code(fields["data"]) == fields["mac"], "INVALID_SIGNATURE")
            return b""

        return self.whole(session, fields, "mac", VERIFY, steps)

    def cipher_encrypt(self, session, fields):
        def steps(operation):
            text = fields["data"]
            require(operation.is_whole(text), "INVALID_ARGUMENT")
            text = primitives.padded(text) if operation.alg == alg.CBC_PKCS7 else text
            vector_length = 0 if operation.alg == alg.ECB else 16
            require(vector_length + len(text) <= fields["room"], "BUFFER_TOO_SMALL")
            vector = self.draw(session, vector_length)
            return vector + operation.turned(vector, text)

        return self.whole(session, fields, "cipher", ENCRYPT, steps)

    def cipher_decrypt(self, session, fields):
        def steps(operation):
            at = 0 if operation.alg == alg.ECB else 16
            vector, text = fields["data"][:at], fields["data"][at:]
            require(len(vector) == at and operation.is_whole(text), "INVALID_ARGUMENT")
            require(len(text) <= fields["room"], "BUFFER_TOO_SMALL")
            text = operation.turned(vector, text)
            text = primitives.unpadded(text) if operation.alg == alg.CBC_PKCS7 else text
            require(text is not None, "INVALID_PADDING")
            return text

        return self.whole(session, fields, "cipher", DECRYPT, steps)

    def aead_encrypt(self, session, fields):
        def steps(operation):
            text = fields["data"]
            require(operation.permits_nonce(fields["nonce"], len(text)), "INVALID_ARGUMENT")
            require(len(text) + operation.tag_length <= fields["room"], "BUFFER_TOO_SMALL")
            return b"".join(operation.turned(fields["nonce"], fields["ad"], text))

        return self.whole(session, fields, "aead", ENCRYPT, steps)

    def aead_decrypt(self, session, fields):
        def steps(operation):
            at = len(fields["data"]) - operation.tag_length
            require(at >= 0 and operation.permits_nonce(fields["nonce"], at), "INVALID_ARGUMENT")
            require(at <= fields["room"], "BUFFER_TOO_SMALL")
            text, tag = operation.turned(fields["nonce"], fields["ad"], fields["data"][:at])
            require(tag == fields["data"][at:], "INVALID_SIGNATURE")
            return text

        return self.whole(session, fields, "aead", DECRYPT, steps)

    # Calls on handles

    def set_up(self, session, command, fields, family):
        handle = (session, fields["handle"])
        require(handle not in self.operations, "BAD_STATE")
        usage = family.setups[command]
        if usage is None:
            self.check_class(fields["alg"], family.kind)
            key = None
        else:
            key = self.usable_key(fields, family.kind, usage)
        self.operations[handle] = family(fields["alg"], key, usage in (ENCRYPT, SIGN))
        return b""

    def step(self, session, command, fields):
        handle = (session, fields["handle"])
        operation = self.operations.get(handle)
        require(operation and not operation.in_error and command in operation.steps, "BAD_STATE")
        try:
            key = operation.key
            require(key is None or self.keys.get(key.identifier) is key, "INVALID_HANDLE")
            answer = getattr(operation, command)(fields, self, session)
        except Refused as refusal:
            operation.in_error = not operation.stays_active(command, refusal.status)
            raise
        if operation.has_ended:
            del self.operations[handle]
        return answer

    def abort(self, session, fields):
        self.operations.pop((session, fields["handle"]), None)
        return b""
