"""Legal logs by the model of the policy: sessions of several kinds by many workers, one beside another."""
import random

from policy import Account, DECOYS, Policy, Setup, line_of

USERS = ["alice", "bob", "carol", "dave", "erin", "frank", "grace", "heidi"]


def setup_of(sequence):
    """A setup with users of both algorithms, and one that isn't enabled."""
    grants = [("notes", 3), ("inbox.log", 1), ("out", 2)]
    accounts = [Account(name, 1000 + place, ("md5", "sha1")[place % 2], sequence, grants)
                for place, name in enumerate(USERS)]
    accounts.append(Account("mallory", 1999, enabled=False))
    return Setup(accounts, workers=8, connections=1900, requests=40, hold=20, info=[1, 2])


class Mix:
    """Makes one log after another line, each by what the policy decides on a session's next ask."""

    def __init__(self, setup, seed):
        self.random, self.policy, self.setup = random.Random(seed), Policy(setup), setup
        self.now, self.lines = 1000, []
        self.sessions = [None] * setup.workers

    def step(self):
        """One event of one worker."""
        worker = self.random.randrange(self.setup.workers)
        if self.sessions[worker] is None:
            self.sessions[worker] = self.whole()
            ask = next(self.sessions[worker])
        else:
            ask = self.sessions[worker].send(self.decided[worker])
        decision = self.policy.decide(worker, ask)
        session = self.policy.settle(worker, ask, decision)
        shown = ask[:1] if ask[0] == "reply" else ask
        self.lines.append(line_of(len(self.lines) + 1, worker, session, shown, decision))
        self.decided[worker] = decision
        if ask[0] == "end":
            self.sessions[worker] = None

    def made(self, count):
        self.decided = {}
        while len(self.lines) < count:
            self.step()
        return self.lines

    def whole(self):
        """A session: an opening, asks of some kind, and the end that they lead to."""
        yield ("open",)
        kinds = [self.login] * 5 + [self.wrong] * 3 + [self.stranger, self.roamer, self.roamer, self.intruder]
        why = ("child-ended",)
        asks, decision = self.random.choice(kinds)(), None
        while True:
            try:
                ask = asks.send(decision)
            except StopIteration:
                break
            decision = yield ask
            if decision[0] == "deny" and decision[1] <= 7:
                why = ("violation", decision[1])
                break
            if ask == ("finish",):
                why = ("finished",)
                break
        if why == ("child-ended",):
            why = self.random.choice([why, ("truncated",), ("bad-frame", 15), ("link-fault",), ("keeper-fault",)])
        yield ("end", why)

    def greeting(self):
        yield ("banner",)
        yield ("write", 0, 0, 10)
        yield ("read", 0, 0, 512)

    def challenge(self, user):
        self.now += self.random.randrange(10)
        return "challenge", user, self.now

    def right(self, user, value):
        """The password that a challenge asks for."""
        return self.setup.named[user].chain[value]

    def login(self):
        yield from self.greeting()
        user = self.random.choice(USERS)
        decision = yield self.challenge(user)
        yield ("write", 0, 0, 16)
        if decision[0] == "deny" or decision[1] >= DECOYS:
            yield ("finish",)
        decision = yield ("reply", self.right(user, decision[1]))
        if decision[0] == "deny":
            yield ("finish",)
        yield ("export", 21 + self.random.randrange(30))
        yield ("import",)
        yield ("write", 0, 0, 9 + len(user))
        for _ in range(self.random.randrange(4)):
            yield from self.file()
        if self.random.random() < 0.3:
            yield ("info", self.random.randrange(1, 4))
        if self.random.random() < 0.3:
            yield ("note", b"all is well")
        yield ("write", 0, 0, 4)
        yield ("finish",)

    def file(self):
        mode, name = self.random.choice([(1, b"notes"), (2, b"notes"), (3, b"notes"), (1, b"inbox.log"), (2, b"out"),
                                         (2, b"inbox.log"), (1, b"missing")])
        decision = yield ("grant", mode, name)
        if decision[0] == "deny":
            yield ("write", 0, 0, 10)
            return
        handle = decision[1]
        yield ("read", handle, self.random.randrange(5), 4000)
        yield ("write", handle, 0, 1 + self.random.randrange(200))
        if self.random.random() < 0.9:
            yield ("close", handle)
        if self.random.random() < 0.1:
            yield ("close", handle)

    def wrong(self):
        """Passwords that aren't right, until the tries are spent."""
        yield from self.greeting()
        for _ in range(self.random.randrange(1, 5)):
            user = self.random.choice(USERS)
            decision = yield self.challenge(user)
            if decision[0] == "deny":
                break
            if self.random.random() < 0.2:
                yield ("abandon",)
                continue
            old = self.policy.accepted[user][-1]
            yield ("reply", *self.random.choice([(), (old,), (bytes(8),), (bytes(8), old)]))
        yield ("finish",)

    def stranger(self):
        """Somebody who isn't a user, or can't log in."""
        yield ("banner",)
        yield self.challenge(self.random.choice(["nobody", "mallory", "root"]))
        yield ("reply", *self.random.choice([(), (bytes(8),)]))
        yield ("finish",)

    def roamer(self):
        """Some asks that are permitted before a login, and no end that the child asks for."""
        for _ in range(self.random.randrange(45)):
            yield self.random.choice([("note", b"x"), ("write", 0, 0, 5), ("read", 0, 7, 100), ("read", 3, 0, 1)])

    def intruder(self):
        """An ask that ends the session."""
        yield ("banner",)
        yield self.random.choice([("banner",), ("import",), ("export", 21), ("grant", 1, b"notes"), ("reply",),
                                  ("bad", 2, 1), ("bad", 4, 4294967295), ("bad", 5, 7)])
