"""What the children of a session send: whole logins, changed ones, and bytes of any kind."""
import struct

from frames import KINDS, frame
from policy import in_words

SHARED = 3  # the accounts that all sessions ask for
STATE = bytes.fromhex("4f545331 01 0000 02 0000 03 0800 00000000 00000000")


class Writer:
    """The bytes of a session's two children."""

    def __init__(self, number, width, setup, dice):
        self.width, self.dice, self.setup = width, dice, setup
        self.own = setup.accounts[number - 1]

    def account(self):
        """The session's own, or one of those that all sessions ask for."""
        return self.own if self.dice.random() < 0.7 else self.dice.choice(self.setup.accounts[:SHARED])

    def moved(self):
        """The length of a READ or a WRITE."""
        most = self.width.moved
        return self.dice.choice([1, 2, 5, 100, 4000, most - 1, most, most + 1 if self.dice.random() < 0.1 else 1])

    def offset(self):
        if self.dice.random() < 0.7:
            return self.dice.choice([0, 0, 1, 3, 10])
        return self.dice.choice([4096, 1 << 31, 1 << 40, (1 << 63) - 1, 1 << 63, (1 << 64) - 1])

    def reply(self):
        account = self.account()
        password = account.chain[account.sequence - 1]
        if self.dice.random() < 0.3:
            password = self.dice.choice([account.password, bytes(8), self.dice.randbytes(8)])
        text = self.dice.choice([password.hex(), password.hex(" ", 2).upper(), in_words(password),
                                 in_words(password).lower().replace(" ", "\t ")])
        return text.encode() if self.dice.random() < 0.9 else b"hello"

    def one(self, word):
        """A right request of a kind."""
        dice = self.dice
        handle = dice.choice([0, 0, 1, 1, 1, 2, 3, 8, 9, 4294967295])
        body = b""
        if word == "challenge":
            name = self.account().name if dice.random() < 0.9 else dice.choice(["nobody", "a", "_" * 32])
            body = name.encode()
        elif word == "reply":
            body = self.reply()
        elif word == "export":
            body = dice.choice([STATE, b"", dice.randbytes(8192), STATE + b"x"])
        elif word == "read":
            body = struct.pack("<IQH", handle, self.offset(), self.moved())
        elif word == "write":
            body = struct.pack("<IQ", handle, self.offset()) + dice.randbytes(self.moved())
        elif word == "grant":
            name = dice.choice([b"notes", b"notes", b"inbox.log", b"other", b"a" * 64])
            body = bytes([dice.choice([1, 2, 3])]) + name
        elif word in ("close", "info"):
            body = struct.pack("<I", dice.choice([0, 1, 1, 2, 3, 8, 9, 4294967295]))
        elif word == "note":
            body = dice.choice([b"x", b"~" * 64, b"all is well"])
        return frame(self.width, KINDS[word], body, 0, dice.choice([0, 0, 7, 4294967295]), dice.choice([0, 0, 9]))

    def login(self):
        account = self.own
        password = account.chain[account.sequence - 1]
        text = self.dice.choice([password.hex(), in_words(password)])
        return [self.one("banner"), self.one("write"), self.one("read"),
                *[frame(self.width, KINDS[word], body) for word, body in
                  (("challenge", account.name.encode()), ("reply", text.encode()), ("export", STATE))]]

    def guesses(self):
        """Challenges for users that others want too, with replies that are seldom right."""
        asks = []
        for _ in range(self.dice.randrange(1, 5)):
            user = self.dice.choice(self.setup.accounts[:SHARED]).name
            asks.append(frame(self.width, KINDS["challenge"], user.encode()))
            asks += [self.one("note")] * self.dice.choice([0, 0, 3])
            asks.append(self.one(self.dice.choice(["reply", "reply", "reply", "abandon"])))
        return asks + [self.one("finish")]

    def file(self):
        """Writes and readings here and there in one file."""
        asks = [frame(self.width, KINDS["grant"], b"\x03notes")]
        for _ in range(self.dice.randrange(2, 8)):
            place = struct.pack("<IQ", 1, self.dice.randrange(12))
            if self.dice.random() < 0.5:
                asks.append(frame(self.width, KINDS["write"], place + self.dice.randbytes(self.dice.randrange(1, 9))))
            else:
                asks.append(frame(self.width, KINDS["read"], place + struct.pack("<H", self.dice.choice([1, 5, 100]))))
        return asks

    def stay(self):
        """What a user's child may ask."""
        asks = [self.one("import")]
        how = self.dice.randrange(4)
        if how == 0:
            asks += self.file()
        elif how == 1 and self.dice.random() < 0.4:
            asks += [self.one("grant") for _ in range(20)]
        for _ in range(self.dice.randrange(12)):
            asks.append(self.one(self.dice.choice(["grant", "grant", "read", "write", "close", "info", "note"])))
        return asks + [self.one("finish")]

    def some(self):
        """Right requests in any order, and frames of any kind."""
        asks = []
        for _ in range(self.dice.randrange(1, 30)):
            if self.dice.random() < 0.9:
                asks.append(self.one(self.dice.choice(list(KINDS))))
            else:
                kind = self.dice.choice([0, 14, 256, 4294967295, self.dice.randrange(1, 14)])
                body, flags = self.dice.randbytes(self.dice.randrange(80)), self.dice.choice([0, 0, 1, 2, 3, 65535])
                asks.append(frame(self.width, kind, body, flags))
        return asks

    def mutated(self, asks):
        """The same with something changed: a frame, its length, or some of the bytes."""
        asks, dice = list(asks), self.dice
        for _ in range(dice.choice([1, 1, 2, 4])):
            how, place = dice.randrange(8), dice.randrange(len(asks))
            ask = bytearray(asks[place])
            if how == 0:
                asks.insert(place, asks[dice.randrange(len(asks))])
            elif how == 1 and len(asks) > 1:
                del asks[place]
            elif how == 2:
                asks[place], asks[-1] = asks[-1], asks[place]
            elif how == 3 and len(ask) >= 6:
                ask[4:6] = struct.pack("<H", dice.choice([0, 15, 16, 17, len(ask) + 1, 16384, 16385, 65535]))
                asks[place] = bytes(ask)
            elif how == 4:
                asks[place] = bytes(ask[:dice.randrange(len(ask) + 1)])
            elif how == 5:
                asks[place] = bytes(ask) + dice.randbytes(dice.randrange(40))
            else:
                for _ in range(dice.choice([1, 1, 3])):
                    if ask:
                        ask[dice.randrange(min(len(ask), 40))] ^= 1 << dice.randrange(8)
                asks[place] = bytes(ask)
        return asks

    def child(self, asks):
        """The file of a child, which shuts down its sending at the end, or ends without taking its answers."""
        data = b"".join(asks)[:400000]
        how = "e" if self.dice.random() < 0.05 else "s"
        piece = self.dice.choice([1, 15, 16, 100, 4000, 4000, 4000])
        if len(data) > 2000:
            piece = max(piece, 100)
        return how.encode() + struct.pack("<H", piece) + data

    def children(self):
        how = self.dice.randrange(10)
        if how == 0:
            pre, user = [self.dice.randbytes(self.dice.randrange(300))], self.some()
        elif how == 1:
            pre, user = self.some(), self.some()
        elif how == 2:
            pre, user = self.guesses(), self.some()
        elif how <= 4:
            pre, user = self.mutated(self.login()), self.stay()
        elif how <= 6:
            pre, user = self.login(), self.mutated(self.stay())
        elif how == 7:
            pre, user = self.login(), self.some()
        elif how == 8:
            pre, user = self.some()[:6] + self.login(), self.mutated(self.mutated(self.stay()))
        else:
            pre, user = self.login(), self.stay()
        return self.child(pre), self.child(user)
