"""The one-thread store with owners, each of whom names keys of its own, for comparison alone."""

from service import FIRST_VOLATILE, Service

RANGE = 1 << 26  # identifiers of persistent keys that an owner has
RANGE_LIMIT = 128  # persistent keys that an owner may have
NO_KEY = 0x7FFFFFFF


def range_of(identifier):
    return identifier // RANGE


class OwnedService(Service):
    """A run's store whose sessions have these owners, by their numbers; the others have owner 0."""

    def __init__(self, owners, *parts):
        super().__init__(*parts)
        self.owners = owners

    def owner(self, session):
        return self.owners.get(session, 0)

    def stated(self, session, identifier):
        """The identifier that a key gets for which the session states one."""
        if identifier == 0:
            return 0
        return self.owner(session) * RANGE + identifier if identifier < RANGE else NO_KEY

    def named(self, session, identifier):
        """The identifier of the key that the session names so."""
        creator = (identifier - FIRST_VOLATILE) >> 20
        if 1 <= creator <= 16 and self.owner(creator) == self.owner(session):
            return identifier
        return self.stated(session, identifier)

    def told(self, identifier):
        """What a session is told of a key's identifier."""
        return identifier % RANGE if identifier < FIRST_VOLATILE else identifier

    def call(self, session, command, fields):
        inner = dict(fields)
        if "key" in fields:
            inner["key"] = self.named(session, fields["key"])
        if "id" in fields:
            inner["id"] = self.stated(session, fields["id"])
        return super().call(session, command, inner)

    def create(self, *parts):
        identifier = int.from_bytes(super().create(*parts), "big")
        return self.told(identifier).to_bytes(4, "big")

    def attributes(self, session, fields):
        answer = super().attributes(session, fields)
        return answer[:4] + self.told(int.from_bytes(answer[4:8], "big")).to_bytes(4, "big") + answer[8:]

    def named_keys(self, session):
        own = lambda key: self.owner(key.creator) if key.identifier >= FIRST_VOLATILE else range_of(key.identifier)
        return {self.told(id): key for id, key in self.keys.items() if own(key) == self.owner(session)}

    def has_room(self, identifier):
        own = [key for key in self.cells if key and range_of(key.identifier) == range_of(identifier)]
        return super().has_room(identifier) and len(own) < RANGE_LIMIT

