"""Operations in several parts, each kept whole, for comparison alone."""

import algorithms as alg
import primitives

TOTAL_LIMIT = 2**32 - 1
INPUT_LIMIT = 1024
COST_LIMIT = 100_000
SECRET, PASSWORD, SALT, INFO, COST = 0x101, 0x102, 0x202, 0x203, 0x205


class Refused(Exception):
    def __init__(self, status):
        super().__init__(status)
        self.status = status


def require(condition, status):
    if not condition:
        raise Refused(status)


class Operation:
    """What the families share: a key, where there is one, and how the operation stands."""

    def __init__(self, number, key, makes):
        self.alg, self.key, self.makes = number, key, makes
        self.data = key.data if key else None
        self.in_error = self.has_ended = False
        self.text = b""

    def stays_active(self, command, status):
        return False

    def end(self, answer=b""):
        self.has_ended = True
        return answer


class HashOperation(Operation):
    kind, setups = "hash", {"hash_setup": None}
    steps = ("hash_update", "hash_finish", "hash_verify")

    def hash_update(self, fields, service, session):
        self.text += fields["data"]
        return b""

    def hash_finish(self, fields, service, session):
        require(alg.digest_length(self.alg) <= fields["room"], "BUFFER_TOO_SMALL")
        return self.end(primitives.hashed(alg.hash_name(self.alg), self.text))

    def hash_verify(self, fields, service, session):
        require(primitives.hashed(alg.hash_name(self.alg), self.text) == fields["hash"], "INVALID_SIGNATURE")
        return self.end()


class MacOperation(Operation):
    kind, setups = "mac", {"mac_sign_setup": 0x400, "mac_verify_setup": 0x800}
    steps = ("mac_update", "mac_sign_finish", "mac_verify_finish")

    def code(self, message):
        if alg.base(self.alg) == alg.CMAC:
            whole = primitives.cmac(self.data, message)
        else:
            whole = primitives.hmac_of(alg.hash_name(self.alg), self.data, message)
        return whole[: alg.tag_length(self.alg)]

    def mac_update(self, fields, service, session):
        self.text += fields["data"]
        return b""

    def mac_sign_finish(self, fields, service, session):
        require(self.makes, "BAD_STATE")
        require(alg.tag_length(self.alg) <= fields["room"], "BUFFER_TOO_SMALL")
        return self.end(self.code(self.text))

    def mac_verify_finish(self, fields, service, session):
        require(not self.makes, "BAD_STATE")
        require(self.code(self.text) == fields["mac"], "INVALID_SIGNATURE")
        return self.end()


class CipherOperation(Operation):
    kind, setups = "cipher", {"cipher_encrypt_setup": 0x100, "cipher_decrypt_setup": 0x200}
    steps = ("cipher_generate_iv", "cipher_set_iv", "cipher_update", "cipher_finish")
    vector = None

    def is_whole(self, text):
        """Whether a text may have this length: a plaintext where the operation encrypts, else a ciphertext."""
        if self.alg == alg.CTR or self.makes and self.alg == alg.CBC_PKCS7:
            return True
        return len(text) % 16 == 0 and (self.alg != alg.CBC_PKCS7 or text != b"")

    def turned(self, vector, text):
        """The text, of whole blocks but under CTR, the other way round."""
        if self.alg == alg.CTR:
            return primitives.ctr(self.data, vector, text)
        if self.alg == alg.ECB:
            return (primitives.ecb_encrypt if self.makes else primitives.ecb_decrypt)(self.data, text)
        return (primitives.cbc_encrypt if self.makes else primitives.cbc_decrypt)(self.data, vector, text)

    def due(self, text):
        """What a text so far has given."""
        count = len(text)
        if self.alg == alg.CBC_PKCS7 and not self.makes:
            count = max(count - 1, 0) // 16 * 16
        elif self.alg != alg.CTR:
            count = count // 16 * 16
        return self.turned(self.vector, text[:count])

    def takes_vector(self):
        return self.alg != alg.ECB and self.vector is None

    def cipher_generate_iv(self, fields, service, session):
        require(self.makes and self.takes_vector(), "BAD_STATE")
        require(fields["room"] >= 16, "BUFFER_TOO_SMALL")
        self.vector = service.draw(session, 16)
        return self.vector

    def cipher_set_iv(self, fields, service, session):
        require(self.takes_vector(), "BAD_STATE")
        require(len(fields["iv"]) == 16, "INVALID_ARGUMENT")
        self.vector = fields["iv"]
        return b""

    def cipher_update(self, fields, service, session):
        require(not self.takes_vector(), "BAD_STATE")
        before, text = self.due(self.text), self.text + fields["data"]
        fresh = self.due(text)[len(before) :]
        require(len(fresh) <= fields["room"], "BUFFER_TOO_SMALL")
        self.text = text
        return fresh

    def cipher_finish(self, fields, service, session):
        require(not self.takes_vector(), "BAD_STATE")
        require(self.is_whole(self.text), "INVALID_ARGUMENT")
        if self.alg != alg.CBC_PKCS7:
            return self.end()
        require(fields["room"] >= 16, "BUFFER_TOO_SMALL")
        if self.makes:
            return self.end(self.turned(self.vector, primitives.padded(self.text))[-16:])
        text = primitives.unpadded(self.turned(self.vector, self.text))
        require(text is not None, "INVALID_PADDING")
        return self.end(text[len(self.text) - 16 :])


class AeadOperation(Operation):
    kind, setups = "aead", {"aead_encrypt_setup": 0x100, "aead_decrypt_setup": 0x200}
    steps = (
        "aead_set_lengths", "aead_generate_nonce", "aead_set_nonce", "aead_update_ad", "aead_update", "aead_finish",
        "aead_verify",
    )
    nonce = lengths = None
    associated = b""
    has_text = False

    def __init__(self, number, key, makes):
        super().__init__(number, key, makes)
        self.tag_length = alg.tag_length(number)
        self.is_ccm = alg.base(number) == alg.CCM

    def permits_nonce(self, nonce, text_length):
        if self.is_ccm:
            return 7 <= len(nonce) <= 13 and text_length < 2 ** (8 * (15 - len(nonce)))
        return 1 <= len(nonce) <= 256

    def turned(self, nonce, associated, text):
        if self.is_ccm:
            out, tag = primitives.ccm(self.data, nonce, associated, text, self.tag_length, not self.makes)
        else:
            out, tag = primitives.gcm(self.data, nonce, associated, text, not self.makes)
        return out, tag[: self.tag_length]

    def takes_nonce(self):
        return self.nonce is None and (self.lengths is not None or not self.is_ccm)

    def aead_set_lengths(self, fields, service, session):
        require(self.lengths is None and self.nonce is None, "BAD_STATE")
        require(max(fields["ad_len"], fields["plain_len"]) <= TOTAL_LIMIT, "INVALID_ARGUMENT")
        self.lengths = (fields["ad_len"], fields["plain_len"])
        return b""

    def aead_generate_nonce(self, fields, service, session):
        require(self.makes and self.takes_nonce(), "BAD_STATE")
        length = 12
        if self.is_ccm:
            length = 13 if self.lengths[1] < 2**16 else 12 if self.lengths[1] < 2**24 else 11
        require(length <= fields["room"], "BUFFER_TOO_SMALL")
        self.nonce = service.draw(session, length)
        return self.nonce

    def aead_set_nonce(self, fields, service, session):
        require(self.takes_nonce(), "BAD_STATE")
        require(self.permits_nonce(fields["nonce"], self.lengths[1] if self.lengths else 0), "INVALID_ARGUMENT")
        self.nonce = fields["nonce"]
        return b""

    def aead_update_ad(self, fields, service, session):
        require(self.nonce is not None and not self.has_text, "BAD_STATE")
        associated = self.associated + fields["data"]
        require(len(associated) <= (self.lengths[0] if self.lengths else TOTAL_LIMIT), "INVALID_ARGUMENT")
        self.associated = associated
        return b""

    def aead_update(self, fields, service, session):
        require(self.nonce is not None, "BAD_STATE")
        text = self.text + fields["data"]
        if self.lengths:
            require(len(self.associated) == self.lengths[0] and len(text) <= self.lengths[1], "INVALID_ARGUMENT")
        require(len(fields["data"]) <= fields["room"], "BUFFER_TOO_SMALL")
        out, _ = self.turned(self.nonce, self.associated, text)
        fresh, self.text, self.has_text = out[len(self.text) :], text, True
        return fresh

    def tag(self):
        if self.lengths:
            require((len(self.associated), len(self.text)) == self.lengths, "INVALID_ARGUMENT")
        return self.turned(self.nonce, self.associated, self.text)[1]

    def aead_finish(self, fields, service, session):
        require(self.makes and self.nonce is not None, "BAD_STATE")
        tag = self.tag()
        require(len(tag) <= fields["room"], "BUFFER_TOO_SMALL")
        return self.end(tag)

    def aead_verify(self, fields, service, session):
        require(not self.makes and self.nonce is not None, "BAD_STATE")
        require(self.tag() == fields["tag"], "INVALID_SIGNATURE")
        return self.end()


class DerivationOperation(Operation):
    kind, setups = "derivation", {"kdf_setup": None}
    steps = (
        "kdf_get_capacity", "kdf_set_capacity", "kdf_input_integer", "kdf_input_bytes", "kdf_input_key", "kdf_output_bytes",
        "kdf_output_key", "kdf_verify_bytes",
    )
    salt = info = secret = cost = None
    taken = 0

    def __init__(self, number, key, makes):
        super().__init__(number, key, makes)
        self.is_hkdf = number & ~0xFF == alg.HKDF
        self.capacity = (255 if self.is_hkdf else TOTAL_LIMIT) * alg.digest_length(number)

    def stays_active(self, command, status):
        kept = {"kdf_set_capacity": "INVALID_ARGUMENT", "kdf_verify_bytes": "INVALID_SIGNATURE"}
        return status == "INSUFFICIENT_DATA" or status == kept.get(command)

    def is_due(self, step):
        if step == INFO:
            return self.info is None and self.taken == 0
        if step == SALT and self.is_hkdf:
            return self.salt is None and self.secret is None
        if step == SALT:
            return self.cost is not None and self.secret is None
        return self.secret is None and (self.is_hkdf or self.salt is not None)

    def take(self, count):
        if count > self.capacity:
            self.capacity = 0
            raise Refused("INSUFFICIENT_DATA")
        name, last = alg.hash_name(self.alg), self.taken + count
        if self.is_hkdf:
            whole = primitives.hkdf(name, self.salt or b"", self.secret, self.info or b"", last)
        else:
            whole = primitives.pbkdf2(name, self.secret, self.salt, self.cost, last)
        fresh, self.taken, self.capacity = whole[self.taken :], last, self.capacity - count
        return fresh

    def kdf_get_capacity(self, fields, service, session):
        return self.capacity.to_bytes(8, "big")

    def kdf_set_capacity(self, fields, service, session):
        require(fields["capacity"] <= self.capacity, "INVALID_ARGUMENT")
        self.capacity = fields["capacity"]
        return b""

    def kdf_input_integer(self, fields, service, session):
        require(not self.is_hkdf and fields["step"] == COST, "INVALID_ARGUMENT")
        require(self.cost is None, "BAD_STATE")
        require(fields["value"] > 0, "INVALID_ARGUMENT")
        require(fields["value"] <= COST_LIMIT, "NOT_SUPPORTED")
        self.cost = fields["value"]
        return b""

    def kdf_input_bytes(self, fields, service, session):
        step, data = fields["step"], fields["data"]
        require(step in ((SALT, SECRET, INFO) if self.is_hkdf else (SALT, PASSWORD)), "INVALID_ARGUMENT")
        require(self.is_due(step), "BAD_STATE")
        if step == SALT:
            data = (self.salt or b"") + data
        require(len(data) <= INPUT_LIMIT, "NOT_SUPPORTED")
        if step == SALT:
            self.salt = data
        elif step == INFO:
            self.info = data
        else:
            self.secret = data
        return b""

    def kdf_input_key(self, fields, service, session):
        step = fields["step"]
        require(step == (SECRET if self.is_hkdf else PASSWORD), "INVALID_ARGUMENT")
        require(self.is_due(step), "BAD_STATE")
        key = service.derivation_key(fields, self.alg)
        require(key.key_type == 0x1200 or step == PASSWORD and key.key_type == 0x1203, "INVALID_ARGUMENT")
        require(not key.is_in_the_element(), "NOT_SUPPORTED")
        self.key, self.secret = key, key.data
        return b""

    def kdf_output_bytes(self, fields, service, session):
        require(self.secret is not None, "BAD_STATE")
        return self.take(fields["len"])

    def kdf_verify_bytes(self, fields, service, session):
        require(self.secret is not None, "BAD_STATE")
        require(self.take(len(fields["data"])) == fields["data"], "INVALID_SIGNATURE")
        return b""

    def kdf_output_key(self, fields, service, session):
        bits = fields["bits"]
        require(self.secret is not None, "BAD_STATE")
        require(bits and bits % 8 == 0, "INVALID_ARGUMENT")
        require(fields.get("life", 0) >> 8 == 0, "NOT_SUPPORTED")
        require(self.key is not None, "NOT_PERMITTED")
        if bits // 8 > self.capacity:
            self.take(bits // 8)
        taken = lambda: self.take(bits // 8)
        return service.create(
            session, fields, fields["type"], fields["usage"], bits, alg.stated(fields), bits // 8, taken
        )


FAMILIES = (HashOperation, MacOperation, CipherOperation, AeadOperation, DerivationOperation)
