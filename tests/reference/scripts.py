"""Scripts at random: calls in likely and in unlikely orders, for comparison alone."""

from dataclasses import dataclass

import algorithms as alg
from runs import Line, Run
from service import CELL_COUNT, LAST_PERSISTENT, OF_THE_ELEMENT, PERSISTENT, VOLATILE

HASHES = [0x02000000 | low for low in alg.HASHES]
MACS = sorted(alg.HMACS) + [alg.CMAC]
CIPHERS = [alg.CTR, alg.CBC, alg.CBC_PKCS7, alg.ECB]
AEADS = [alg.CCM | 16 << 16, alg.GCM | 16 << 16]
DERIVATIONS = [number | low for number in (alg.HKDF, alg.PBKDF2) for low in alg.HASHES]
NUMBERS = {"hash": HASHES, "mac": MACS, "cipher": CIPHERS, "aead": AEADS, "derivation": DERIVATIONS}
STRANGE = [0, 1, 0x01000000, 0x04C01001, 0x02000007, 0x0800010C, 0x02008009, 0xFFFFFFFF]
ALL_USAGES = 0xFF07
WHOLE_CALLS = {
    "hash": ["hash_compute", "hash_compare"],
    "mac": ["mac_compute", "mac_verify"],
    "cipher": ["cipher_encrypt", "cipher_decrypt"],
    "aead": ["aead_encrypt", "aead_decrypt"],
}
KEY_CALLS = ["attributes", "export", "purge", "destroy", "destroy"]
UNDOING = {
    "hash_compare": "hash_compute",
    "mac_verify": "mac_compute",
    "cipher_decrypt": "cipher_encrypt",
    "aead_decrypt": "aead_encrypt",
}
KEYS = [
    (0x2400, CIPHERS),
    (0x2400, AEADS),
    (0x2400, [alg.CMAC]),
    (0x1100, sorted(alg.HMACS)),
    (0x1200, DERIVATIONS),
    (0x1203, DERIVATIONS[4:]),
]
ELEMENT_KEYS = [(0x2400, CIPHERS), (0x2400, [alg.CTR]), (0x2400, [alg.CMAC]), (0x1100, sorted(alg.HMACS))]


@dataclass(frozen=True)
class Mix:
    """What a script has more or less of."""

    sessions: tuple = (1, 1, 1, 2, 2, 3, 16)
    identifiers: tuple = (*range(1, 12), 0x3FFFFFFF)  # of persistent keys
    persistent: float = 0.25  # the chance that a created key is
    in_element: float = 0.1  # likewise
    by_identifier: float = 0.15  # the chance that a key is named so, and may be any session's
    creations: float = 0.12  # the chance that a call is one
    key_calls: float = 0.06  # likewise: one that asks for a key alone
    operations: int = 4  # so many are under way at most
    lengths: tuple = (0, 1, 15, 16, 17, 31, 32, 33, 48, 64, 100)  # of texts, in bytes
    strange_costs: tuple = (0, 100000, 100001)


class Script:
    """A script made at random, and the reference's replies to it in the order of its lines."""

    def __init__(self, random, service, mix=Mix()):
        self.random, self.run, self.mix = random, Run(service), mix
        self.policies, self.made = {}, {}

    def fill(self, count):
        """Writes creations until the store has so many persistent keys."""
        while CELL_COUNT - self.run.service.cells.count(None) < count:
            place = {"life": PERSISTENT, "id": self.random.choice(self.mix.identifiers)}
            self.make(self.creation(self.random.choice(self.mix.sessions), place))

    def crowd(self):
        """Writes calls until each session has all volatile keys and most operations that it can have, which bind slots."""
        for session in range(1, 17):
            while self.make(self.creation(session, {"life": VOLATILE})) != "KEY_LIMIT":
                pass
            for handle in 3 * "1234":
                key, policy = self.key(session, "mac")
                words, fields = [("handle", handle), key], {"alg": self.number_for(policy, "mac")}
                self.make(Line(session, "mac_sign_setup", words, fields))

    def write(self, count):
        """Writes lines until there are so many."""
        running = []
        while len(self.run.lines) < count:
            session, chance = self.random.choice(self.mix.sessions), self.random.random()
            if not self.run.named(session) or chance < self.mix.creations:
                self.make(self.creation(session))
            elif chance < self.mix.creations + self.mix.key_calls:
                self.make(self.key_call(session))
            elif chance < 0.4:
                self.make(self.whole_call(session))
            elif chance < 0.55 and len(running) < self.mix.operations:
                running.append(self.disturbed(session, self.operation(session)))
            elif running:
                calls = self.random.choice(running)
                status = self.make(calls.pop(0))
                # after a refusal most give up
                if not calls or status != "SUCCESS" and self.random.random() < 0.6:
                    running.remove(calls)

    def make(self, line):
        """Makes a call, and keeps what another one may check or turn back; gives its status."""
        status, answer = self.run.make(line)
        if status == "SUCCESS" and line.command in UNDOING.values():
            self.made.setdefault((line.session, line.command), []).append((line, answer))
        return status

    def often(self, likely, unlikely, chance=0.9):
        return self.random.choice(likely if self.random.random() < chance else unlikely)

    def maybe(self, chance, **fields):
        return fields if self.random.random() < chance else {}

    def data(self, *lengths):
        return self.random.randbytes(self.random.choice(lengths or self.mix.lengths))

    def room(self):
        return self.maybe(0.1, room=self.random.choice([0, 1, 11, 12, 13, 15, 16, 17, 28, 31, 32, 33, 48, 64, 16448]))

    def spoiled(self, value):
        """The value, now and then cut, with a byte more, or with another bit."""
        turned = bytes([value[0] ^ 1]) + value[1:] if value else b""
        return self.often([value], [value[:-1], value + b"\0", turned, b""], 0.7)

    # Keys and algorithms

    def new_name(self, session, number):
        name = self.random.choice("abcdefghij")
        self.policies[session, name] = number
        return ("name", name)

    def kind(self, session):
        """Mostly a class that a key of the session is for."""
        kinds = [alg.class_of(self.policies[session, name]) for name in self.run.living(session)]
        if self.random.random() < self.mix.by_identifier:
            kinds = [alg.class_of(number) for key in self.run.service.keys.values() for number in key.algorithms]
        return self.often([kind for kind in kinds if kind in NUMBERS] + ["hash"], [*NUMBERS])

    def keys(self, session):
        """The keys that the session can name, and now and then those that another session can."""
        other = self.often([session], self.mix.sessions, 0.95)
        return self.run.service.named_keys(other)

    def key(self, session, kind=None):
        """A key whose policy is of this class, if there is one, and now and then any other; and a number of its policy's."""
        keys = self.keys(session)
        if keys and self.random.random() < self.mix.by_identifier:
            fits = lambda identifier: not kind or kind in map(alg.class_of, keys[identifier].algorithms)
            persistent = [identifier for identifier in keys if identifier <= LAST_PERSISTENT]
            among = self.often([persistent or [*keys]], [[*keys]], 0.7)
            identifier = self.often([*filter(fits, among)] or among, among)
            return ("key", f"#{identifier:x}"), self.random.choice([*filter(None, keys[identifier].algorithms)] or [0])
        known, living = self.run.named(session), self.run.living(session)
        fitting = [name for name in living if alg.class_of(self.policies[session, name]) == kind] or living or known
        if self.random.random() < 0.95:
            name = self.often(fitting, known, 0.95)
            return ("key", "$" + name), self.policies[session, name]
        identifier = (self.random.randrange(1, 17) << 20) + 0x40000000 + self.random.randrange(4)
        return ("key", f"#{self.random.choice([0, identifier]):x}"), 0

    def variant(self, number):
        """A MAC's or AEAD's number of another length, or a wildcard."""
        if self.random.random() < 0.4 or alg.class_of(number) not in ("mac", "aead"):
            return number
        length = self.random.choice([0, 3, 4, 5, 6, 8, 10, 12, 14, 16, 20, 28, 32, 33, 48, 63])
        return alg.base(number) | length << 16 | (alg.AT_LEAST if self.random.random() < 0.4 else 0)

    def any_number(self):
        return self.variant(self.random.choice(STRANGE + sum(NUMBERS.values(), [])))

    def number_for(self, policy, kind):
        """A number that the policy may permit."""
        if policy and self.random.random() < 0.9:
            length = self.random.choice([8, 12, 16, 20]) << 16
            return alg.base(policy) | length if policy & alg.AT_LEAST else policy
        return self.often(NUMBERS[kind], [self.any_number()], 0.5)

    # Calls on keys, and of whole messages

    def place(self):
        """Where a key goes: to memory, to the file or to the secure element, and now and then nowhere."""
        pick, chance = self.random.choice, self.random.random()
        if chance < self.mix.persistent:
            return {"life": PERSISTENT, "id": pick(self.mix.identifiers)}
        if chance < self.mix.persistent + self.mix.in_element:
            return {"life": OF_THE_ELEMENT}
        lives, identifiers = [0, 1, 2, 0x100, 0x101, 0x200, 0xFFFFFFFF], [0, 1, 7, 0x40000000, 0x40100000, 0xFFFFFFFF]
        return self.maybe(0.04, life=pick(lives)) | self.maybe(0.04, id=pick(identifiers))

    def kinds_of_key(self, place):
        """The likely types of a key there, each with its algorithms: under one identifier mostly the same."""
        if place.get("life") == OF_THE_ELEMENT:
            return ELEMENT_KEYS
        return [KEYS[place["id"] % len(KEYS)]] if "id" in place else KEYS

    def creation(self, session, place=None):
        pick, place = self.random.choice, place or self.place()
        key_type, numbers = pick(self.often([self.kinds_of_key(place)], [KEYS]))
        number = self.often([self.variant(pick(numbers))], [self.any_number()])
        key_type = self.often([key_type], [0x1001, 0x1100, 0x1200, 0x1203, 0x2400, 0x2401, 0], 0.93)
        usual = (16, 24, 32) if key_type == 0x2400 else (1, 20, 64, 65, 128, 129, 200, 1024)
        count = self.often(usual, (0, 1, 15, 1025), 0.95)
        usage = self.often([ALL_USAGES], [0x300, 0xC00, 0x3000, 0x1000, 0x4000, 0x8000, 0xFF06, 3, 0x10000, 8], 0.8)
        command = pick(["import", "import", "import", "generate", "copy"]) if self.run.named(session) else "import"
        if command == "copy":
            key, policy = self.key(session, alg.class_of(number))
            source = self.run.service.named_keys(session).get(self.run.identifier(session, key[1]))
            if source and source.is_in_the_element() and self.random.random() < 0.7:
                place = {"life": OF_THE_ELEMENT}
            number = self.often([policy], [number, self.variant(policy)], 0.5)
            fields = {"usage": usage, "alg": number} | self.maybe(0.1, type=key_type) | self.maybe(0.05, bits=128)
            if source and source.algorithms[1]:
                fields |= self.maybe(0.7, alg2=self.often([source.algorithms[1]], [self.variant(source.algorithms[1])], 0.6))
            return Line(session, command, [self.new_name(session, number), key], fields | place)
        fields = {"type": key_type, "usage": usage, "alg": number}
        fields |= self.maybe(0.25, alg2=self.often([self.variant(pick(numbers))], [self.any_number(), 0], 0.8))
        if command == "import":
            fields |= {"data": self.data(count)} | self.maybe(0.1, bits=pick([0, 8 * count, 8 * count + 1]))
        else:
            fields["bits"] = self.often([8 * count], [0, 7, 1000, 65528])
        return Line(session, command, [self.new_name(session, number)], fields | place)

    def key_call(self, session):
        command = self.random.choice(KEY_CALLS)
        return Line(session, command, [self.key(session)[0]], self.room() if command == "export" else {})

    def whole_call(self, session):
        kind = self.kind(session)
        if kind == "derivation":
            return self.key_call(session)
        command = self.random.choice(WHOLE_CALLS[kind])
        made = self.made.get((session, UNDOING.get(command)))
        if made and self.random.random() < 0.8:
            return self.undoing(command, *self.random.choice(made))
        if kind == "hash":
            fields = {"alg": self.often(HASHES, [self.any_number()]), "data": self.data()}
            fields |= self.room() if command == "hash_compute" else {"hash": self.data(0, 28, 32)}
            return Line(session, command, [], fields)
        key, policy = self.key(session, kind)
        lengths = (0, 16, 32, 48, 64, 15, 33) if kind == "cipher" else ()
        fields = {"alg": self.number_for(policy, kind), "data": self.data(*lengths)}
        if kind == "aead":
            fields |= {"nonce": self.data(12, 12, 12, 7, 13, 6, 14, 0, 1, 256, 257)} | self.maybe(0.6, ad=self.data())
        fields |= {"mac": self.data(0, 4, 16, 32)} if command == "mac_verify" else self.room()
        return Line(session, command, [key], fields)

    def undoing(self, command, line, answer):
        """The call that checks or turns back what a line gave, which may be spoiled."""
        fields = {name: value for name, value in line.fields.items() if name != "room"}
        fields[{"hash_compare": "hash", "mac_verify": "mac"}.get(command, "data")] = self.spoiled(answer)
        room = {} if command in ("hash_compare", "mac_verify") else self.room()
        return Line(line.session, command, line.words, fields | room)

    # Operations: the calls of each family in their order

    def operation(self, session):
        handle = ("handle", self.random.choice("112234"))
        line = lambda command, *words, **fields: Line(session, command, [handle, *words], fields)
        kind = self.kind(session)
        made = self.made.get((session, {"hash": "hash_compute", "mac": "mac_compute", "aead": "aead_encrypt"}.get(kind)))
        if made and self.random.random() < 0.3:
            return list(self.checking(line, kind, *self.random.choice(made)))
        return list(getattr(self, kind)(session, line))

    def pieces(self, text):
        at = self.random.randrange(len(text) + 1)
        return [text[:at], text[at:]]

    def checking(self, line, kind, made, answer):
        """An operation that checks what a call gave, which may be spoiled."""
        fields, key = made.fields, [word for word in made.words if word[0] == "key"]
        setup = {"hash": "hash_setup", "mac": "mac_verify_setup", "aead": "aead_decrypt_setup"}[kind]
        yield line(setup, *key, alg=fields["alg"])
        if kind != "aead":
            for piece in self.pieces(fields["data"]):
                yield line(f"{kind}_update", data=piece)
            yield line("hash_verify" if kind == "hash" else "mac_verify_finish", **{kind: self.spoiled(answer)})
            return
        associated, at = fields.get("ad", b""), len(fields["data"])
        yield line("aead_set_lengths", ad_len=len(associated), plain_len=at)
        yield line("aead_set_nonce", nonce=fields["nonce"])
        for piece in self.pieces(associated):
            yield line("aead_update_ad", data=piece)
        for piece in self.pieces(answer[:at]):
            yield line("aead_update", data=piece)
        yield line("aead_verify", tag=self.spoiled(answer[at:]))

    def hash(self, session, line):
        yield line("hash_setup", alg=self.often(HASHES, [self.any_number()]))
        for _ in range(self.random.randrange(4)):
            yield line("hash_update", data=self.data())
        yield line("hash_finish", **self.room())

    def mac(self, session, line):
        key, policy = self.key(session, "mac")
        yield line(self.often(["mac_sign_setup"], ["mac_verify_setup"]), key, alg=self.number_for(policy, "mac"))
        for _ in range(self.random.randrange(4)):
            yield line("mac_update", data=self.data())
        yield line("mac_sign_finish", **self.room())

    def cipher(self, session, line):
        key, policy = self.key(session, "cipher")
        encrypts, number = self.random.random() < 0.5, self.number_for(policy, "cipher")
        yield line("cipher_encrypt_setup" if encrypts else "cipher_decrypt_setup", key, alg=number)
        if encrypts and self.random.random() < 0.5:
            yield line("cipher_generate_iv", **self.room())
        elif number != alg.ECB or self.random.random() < 0.1:
            yield line("cipher_set_iv", iv=self.data(*[16] * 9, 15, 17))
        for _ in range(self.random.randrange(5)):
            yield line("cipher_update", data=self.data(0, 1, 15, 16, 16, 16, 17, 32, 33), **self.room())
        yield line("cipher_finish", **self.room())

    def aead(self, session, line):
        key, policy = self.key(session, "aead")
        associated = [self.data(0, 1, 14, 16, 20) for _ in range(self.random.randrange(3))]
        text = [self.data(0, 1, 15, 16, 17, 32) for _ in range(self.random.randrange(4))]
        encrypts, number = self.random.random() < 0.8, self.number_for(policy, "aead")
        yield line("aead_encrypt_setup" if encrypts else "aead_decrypt_setup", key, alg=number)
        if self.random.random() < (0.95 if alg.base(number) == alg.CCM else 0.5):
            plain = self.often([sum(map(len, text))], [65535, 65536, 2**24, 2**32 - 1, 2**32])
            yield line("aead_set_lengths", ad_len=sum(map(len, associated)) + (self.random.random() < 0.06), plain_len=plain)
        if self.random.random() < 0.3:
            yield line("aead_generate_nonce", **self.room())
        else:
            yield line("aead_set_nonce", nonce=self.data(*[12] * 6, 13, 7, 8, 6, 14, 0, 1, 256))
        for piece in associated:
            yield line("aead_update_ad", data=piece)
        for piece in text:
            yield line("aead_update", data=piece, **self.room())
        yield line("aead_finish", **self.room()) if encrypts else line("aead_verify", tag=self.data(0, 4, 16))

    def derivation(self, session, line):
        chance = self.random.random
        key, policy = self.key(session, "derivation")
        number = self.number_for(policy, "derivation")
        is_hkdf = number & ~0xFF == alg.HKDF
        yield line("kdf_setup", alg=number)
        if not is_hkdf:
            cost = self.often([1, 2, 3], self.mix.strange_costs)
            yield line("kdf_input_integer", step=self.often([0x205], [0x202, 0x101], 0.95), value=cost)
        yield line("kdf_input_bytes", step=0x202, data=self.data(0, 1, 13, 64, 200, 1024, 1025))
        if chance() < 0.2:
            yield line("kdf_input_bytes", step=self.random.choice([0x202, 0x203]), data=self.data(0, 1, 13, 900, 1024))
        step = self.often([0x101 if is_hkdf else 0x102], [0x101, 0x102, 0x202, 0x203], 0.95)
        if chance() < 0.4:
            yield line("kdf_input_bytes", step=step, data=self.data(0, 1, 22, 64, 200, 1024, 1025))
        else:
            yield line("kdf_input_key", key, step=step)
        if is_hkdf and chance() < 0.4:
            yield line("kdf_input_bytes", step=0x203, data=self.data())
        for _ in range(self.random.randrange(6)):
            yield self.taking(session, line)

    def taking(self, session, line):
        """A call that takes of a derivation, or limits what may be taken."""
        pick, chance = self.random.choice, self.random.random()
        if chance < 0.4:
            return line("kdf_output_bytes", len=self.often([1, 2, 31, 32, 33, 40, 64, 100, 500], [8119, 9000]))
        if chance < 0.5:
            return line("kdf_get_capacity")
        if chance < 0.58:
            return line("kdf_set_capacity", capacity=pick([0, 1, 40, 100, 1000, 8160, 2**40, 2**63]))
        if chance < 0.66:
            return line("kdf_verify_bytes", data=self.data(0, 1, 32))
        bits = self.often([128, 192, 256], [0, 7, 8, 8200, 65528])
        fields = {"type": self.often([0x2400], [0x1100, 0x1001, 5]), "bits": bits}
        fields |= {"usage": self.often([ALL_USAGES], [0x300, 0x10000]), "alg": pick(CIPHERS + AEADS)}
        fields |= self.maybe(0.2, alg2=pick(CIPHERS + AEADS))
        return line("kdf_output_key", self.new_name(session, fields["alg"]), **fields, **self.place())

    def disturbed(self, session, calls):
        """The calls with one left out, made twice or in another order, or with a key destroyed between them."""
        chance, at = self.random.random(), self.random.randrange(len(calls))
        abort = Line(session, "abort", calls[0].words[:1], {})
        if chance < 0.08:
            del calls[at]
        elif chance < 0.16:
            calls.insert(at, calls[at])
        elif chance < 0.22:
            self.random.shuffle(calls)
        elif chance < 0.3:
            keys = [word for word in calls[0].words if word[0] == "key"] or [self.key(session)[0]]
            calls.insert(at, Line(session, "destroy", keys, {}))
        return ([abort] if self.random.random() < 0.7 else []) + calls
