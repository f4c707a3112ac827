"""What a monitor should do, in plain Python: one-time passwords, setup files, log lines and the policy.

It shares nothing with the program, and its values come from the formats and from RFC 2289.
"""
import hashlib, re

WORDS = "".join("Q" + "".join(chr(65 + (i >> shift & 15)) for shift in (8, 4, 0)) + "\n" for i in range(2048))


# One-time passwords. A password is its eight bytes.

def fold(algo, data):
    """The hash of some bytes, folded to eight."""
    digest = hashlib.new(algo, data).digest()
    if algo == "md5":
        return bytes(a ^ b for a, b in zip(digest[:8], digest[8:]))
    words = [digest[i:i + 4][::-1] for i in range(0, 20, 4)]
    first = bytes(a ^ b ^ c for a, b, c in zip(words[0], words[2], words[4]))
    return first + bytes(a ^ b for a, b in zip(words[1], words[3]))


def chain(algo, seed, phrase, length):
    """The passwords of a chain with the numbers 0 to `length`."""
    made = [fold(algo, (seed.lower() + phrase).encode())]
    while len(made) <= length:
        made.append(fold(algo, made[-1]))
    return made


def readings(text):
    """The passwords that a reply's text spells, as six words and in hexadecimal."""
    found = []
    words = re.split(rb"[ \t]+", text)
    numbers = [int(word[1:].upper().translate(bytes.maketrans(b"ABCDEFGHIJKLMNOP", b"0123456789ABCDEF")), 16)
               for word in words if re.fullmatch(rb"[qQ][a-hA-H][a-pA-P]{2}", word)]
    if len(words) == len(numbers) == 6:
        bits = 0
        for number in numbers:
            bits = bits << 11 | number
        if sum(bits >> shift & 3 for shift in range(2, 66, 2)) & 3 == bits & 3:
            found.append((bits >> 2).to_bytes(8, "big"))
    digits = re.sub(rb"[ \t]", b"", text)
    if re.fullmatch(rb"[0-9a-fA-F]{16}", digits):
        found.append(bytes.fromhex(digits.decode()))
    return found


def in_words(password):
    """A password in six words."""
    value = int.from_bytes(password, "big")
    bits = value << 2 | sum(value >> shift & 3 for shift in range(0, 64, 2)) & 3
    return " ".join(WORDS[5 * number:][:4] for number in (bits >> shift & 2047 for shift in range(55, -1, -11)))


# Setups

class Account:
    """A user of a setup, with the whole chain of passwords."""

    def __init__(self, name, uid, algo="md5", sequence=99, grants=(("notes", 3),), enabled=True, seed=None):
        self.name, self.uid, self.algo, self.sequence, self.enabled = name, uid, algo, sequence, enabled
        self.seed = seed or f"s{uid}"[:16]
        self.grants = dict(grants)
        self.chain = chain(algo, self.seed, f"the phrase of {name}", sequence)
        self.password = self.chain[sequence]

    def toml(self):
        grants = ", ".join(f'{{ name = "{name}", mode = {mode} }}' for name, mode in self.grants.items())
        return (f'[[account]]\nname = "{self.name}"\nuid = {self.uid}\nalgorithm = "{self.algo}"\n'
                f'seed = "{self.seed}"\nsequence = {self.sequence}\npassword = "{self.password.hex()}"\n'
                f"enabled = {str(self.enabled).lower()}\ngrants = [{grants}]\n")


class Setup:
    """A setup; whatever isn't named has a plain value."""

    def __init__(self, accounts=(), **keys):
        self.socket, self.launcher, self.vault, self.words = "socket", "launcher", "vault", "words"
        self.banner, self.salt, self.frames = "OTP login", "decoy", "narrow"
        self.workers, self.connections, self.requests, self.tries, self.hold = 1, 1, 64, 3, 30000
        self.info = []
        self.accounts = list(accounts)
        for key, value in keys.items():
            if not hasattr(self, key):
                raise KeyError(key)
            setattr(self, key, value)
        self.named = {account.name: account for account in self.accounts}
        self.places = {account.name: place for place, account in enumerate(self.accounts)}

    def toml(self):
        keys = "socket launcher vault words banner salt frames workers connections requests tries hold info"
        lines = []
        for key in keys.split():
            value = getattr(self, key)
            lines.append(f"{key} = " + (f'"{value}"' if isinstance(value, str) else str(value)))
        return "\n".join(lines) + "\n\n" + "\n".join(account.toml() for account in self.accounts)


# Log lines. An ask is a tuple that begins with its word, a decision is ("permit", value) or
# ("deny", rule, detail).

U8, U16, U32, U64 = 1 << 8, 1 << 16, 1 << 32, 1 << 64
NAME = re.compile(rb"[a-z_][a-z0-9_-]{0,31}")
LABEL = re.compile(rb"[a-z][a-z0-9._-]{0,63}")
NOTE = re.compile(rb"[ -~]{1,64}")
NUMBER = re.compile(rb"0|[1-9][0-9]*")
# What stands after the word of an ask.
BEHIND = {
    "open": (), "banner": (), "challenge": ("name", U64), "reply": (), "abandon": (), "export": (U16,), "import": (),
    "read": (U32, U64, U16), "write": (U32, U64, U16), "grant": (U8, LABEL), "close": (U32,), "info": (U32,),
    "note": (NOTE,), "finish": (), "bad": ((2, 5), U32), "end": ("why",),
}
# What stands after the word of an end.
WHYS = {"finished": (), "child-ended": (), "truncated": (), "bad-frame": (U16,), "violation": ((1, 7),),
        "link-fault": (), "keeper-fault": (), "log-lost": ()}
# The asks whose permit has a value in decimal.
VALUED = ("challenge", "export", "grant", "info")


class Unreadable(Exception):
    """A text is no line of a log."""


def number_of(word, form):
    if not NUMBER.fullmatch(word):
        raise Unreadable(word)
    number = int(word)
    least, most = form if isinstance(form, tuple) else (0, form - 1)
    if not least <= number <= most:
        raise Unreadable(word)
    return number


def part_of(words, form):
    """The part that the next word of a line is."""
    word = words.pop(0) if words else b""
    if form == "name":
        if not NAME.fullmatch(word):
            raise Unreadable(word)
        return word.decode()
    if form == "why":
        why = word.decode("latin-1")
        if why not in WHYS:
            raise Unreadable(word)
        return (why, *[part_of(words, one) for one in WHYS[why]])
    if isinstance(form, re.Pattern):
        if not re.fullmatch(rb"([0-9a-f]{2})+", word) or not form.fullmatch(bytes.fromhex(word.decode())):
            raise Unreadable(word)
        return bytes.fromhex(word.decode())
    return number_of(word, form)


def read_line(line):
    """Number, worker, session, ask and decision of a line with its newline."""
    if not line.endswith(b"\n"):
        raise Unreadable(line)
    words = line[:-1].split(b" ")
    number = part_of(words, U32)
    places = []
    for letter in b"ws":
        word = words.pop(0) if words else b""
        if word[:1] != bytes([letter]):
            raise Unreadable(line)
        places.append(number_of(word[1:], U32))
    worker, session = places
    word = words.pop(0).decode("latin-1") if words else ""
    if word not in BEHIND:
        raise Unreadable(line)
    ask = (word, *[part_of(words, form) for form in BEHIND[word]])
    decided = words.pop(0) if words else b""
    if decided == b"deny":
        decision = ("deny", part_of(words, (1, 22)), part_of(words, U32))
    elif decided != b"permit":
        raise Unreadable(line)
    elif word in VALUED:
        decision = ("permit", part_of(words, U64))
    elif word == "reply":
        text = words.pop(0) if words else b""
        if not re.fullmatch(rb"[0-9a-f]{16}", text):
            raise Unreadable(line)
        decision = ("permit", bytes.fromhex(text.decode()))
    else:
        decision = ("permit", session if word == "open" else 0)
    if words:
        raise Unreadable(line)
    return number, worker, session, ask, decision


def flat(parts):
    """The words of an ask."""
    for part in parts:
        if isinstance(part, tuple):
            yield from flat(part)
        else:
            yield part.hex() if isinstance(part, bytes) else str(part)


def line_of(number, worker, session, ask, decision):
    words = [str(number), f"w{worker}", f"s{session}", *flat(ask), decision[0]]
    if decision[0] == "deny":
        words += [str(decision[1]), str(decision[2])]
    elif ask[0] in VALUED:
        words.append(str(decision[1]))
    elif ask[0] == "reply":
        words.append(decision[1].hex())
    return " ".join(words) + "\n"


# The policy. A REPLY's ask here has its readings after its word; those of a log have none.

NUMBERS = {word: number for number, word in enumerate(
    "banner challenge reply abandon export import read write grant close info note finish".split(), 1)}
ANYWHERE = {"read", "write", "note", "finish"}
CELLS = {"Over": set(), "Pre": ANYWHERE | {"banner", "challenge"},
         "Challenged": ANYWHERE | {"banner", "reply", "abandon"}, "Verified": ANYWHERE | {"export"},
         "User": ANYWHERE | {"import", "grant", "close", "info"}}
ONCE = {"banner", "export", "import"}
DECOYS = 10000  # the least value of a decoy's challenge
HANDLES = 8


class Session:
    """What the events of a session say."""

    def __init__(self):
        self.asked = self.denied = 0
        self.over = self.is_taken = False
        self.had = set()  # the kinds that were permitted
        self.user = self.value = None  # of the last permitted CHALLENGE
        self.verified = None
        self.open = {}  # the mode of each handle

    def phase(self):
        if self.over:
            return "Over"
        if "export" in self.had:
            return "User"
        if "reply" in self.had:
            return "Verified"
        return "Challenged" if self.is_taken else "Pre"


class Policy:
    """Decides on asks, and keeps what the events so far say."""

    def __init__(self, setup):
        self.setup = setup
        self.openings = 0
        self.sessions = {}
        self.open = {}  # each worker's open session
        self.taken = {}  # the session and moment of each user's last taking
        self.accepted = {account.name: [account.password] for account in setup.accounts}

    def sequence(self, user):
        return self.setup.named[user].sequence - len(self.accepted[user]) + 1

    def decoy(self, user):
        """Algorithm, number and seed of a name's decoy."""
        made = fold("md5", (self.setup.salt.lower() + user).encode())
        value = int.from_bytes(made, "big")
        return "sha1" if value >> 16 & 1 else "md5", value % 65536 % 1000, made[:4].hex()

    def holder(self, user):
        session = self.taken.get(user, (0, 0))[0]
        found = self.sessions.get(session)
        holds = found and not found.over and found.is_taken and found.user == user and found.value < DECOYS
        return session if holds else 0

    def decide(self, worker, ask):
        """The first rule that applies."""
        setup, word = self.setup, ask[0]
        number = self.open.get(worker, 0)
        if word == "open":
            return ("deny", 6, 0) if number else ("permit", self.openings + 1)
        if word == "end":
            return ("permit", 0) if number else ("deny", 6, 0)
        request = NUMBERS.get(word, 0)
        session = self.sessions.get(number)
        if session is None or session.over:
            return "deny", 6, request
        if session.asked == setup.requests:
            return "deny", 1, setup.requests
        if word == "bad":
            return "deny", ask[1], ask[2]
        if word not in CELLS[session.phase()]:
            return "deny", 6, request
        if word in ONCE and word in session.had:
            return "deny", 7, request
        if word == "challenge":
            return self.decide_challenge(number, session, ask[1], ask[2])
        if word == "reply":
            return self.decide_reply(number, session, ask[1:])
        if word == "export":
            return "permit", setup.places.get(session.verified, 0)
        if word in ("read", "write") and ask[1] != 0:
            if ask[1] not in session.open:
                return "deny", 17, ask[1]
            needed = 1 if word == "read" else 2
            return ("permit", 0) if session.open[ask[1]] & needed else ("deny", 18, ask[1])
        if word == "grant":
            return self.decide_grant(session, ask[1], ask[2].decode())
        if word == "close" and ask[1] not in session.open:
            return "deny", 17, ask[1]
        if word == "info":
            return ("permit", self.sequence(session.verified)) if ask[1] in setup.info else ("deny", 22, ask[1])
        return "permit", 0

    def is_live(self, user):
        return user in self.setup.named and self.setup.named[user].enabled and self.sequence(user) > 0

    def decide_challenge(self, number, session, user, now):
        if session.denied >= self.setup.tries:
            return "deny", 8, self.setup.tries
        if not self.is_live(user):
            return "permit", DECOYS + self.decoy(user)[1]
        if self.holder(user) not in (0, number) and now < self.taken[user][1] + self.setup.hold:
            return "deny", 12, self.taken[user][0]
        return "permit", self.sequence(user) - 1

    def decide_reply(self, number, session, readings):
        if session.value >= DECOYS:
            return ("deny", 16, 0) if readings else ("deny", 14, 0)
        user = session.user
        if self.holder(user) != number:
            return "deny", 13, self.taken[user][0]
        if not readings:
            return "deny", 14, 0
        for reading in readings:
            if self.is_next(user, reading):
                return "permit", reading
        return ("deny", 15, 0) if any(one in self.accepted[user] for one in readings) else ("deny", 16, 0)

    def is_next(self, user, password):
        accepted = self.accepted[user]
        return fold(self.setup.named[user].algo, password) == accepted[-1] and password not in accepted

    def decide_grant(self, session, mode, name):
        grants = self.setup.named[session.verified].grants
        if len(session.open) >= HANDLES:
            return "deny", 19, HANDLES
        if name not in grants:
            return "deny", 20, 0
        if grants[name] & mode != mode:
            return "deny", 21, mode
        return "permit", min(set(range(1, HANDLES + 1)) - set(session.open))

    def settle(self, worker, ask, decision):
        """Takes an event, and gives its session."""
        word, is_permit = ask[0], decision[0] == "permit"
        if word == "open" and is_permit:
            self.openings += 1
            self.open[worker] = self.openings
            self.sessions[self.openings] = Session()
            return self.openings
        number = self.open.get(worker, 0)
        session = self.sessions.get(number)
        if session is None:
            return number
        if word not in ("open", "end"):
            session.asked += 1
        if word == "end":
            session.over = True
            if is_permit:
                self.open[worker] = 0
            return number
        if not is_permit and decision[1] <= 7 or word == "finish" and is_permit:
            session.over = True
        if word == "reply":
            session.is_taken = False
            session.denied += not is_permit and 13 <= decision[1] <= 16
        if is_permit:
            self.settle_permit(number, session, ask, decision[1])
            session.had.add(word)
        return number

    def settle_permit(self, number, session, ask, value):
        word = ask[0]
        if word == "challenge":
            session.is_taken, session.user, session.value = True, ask[1], value
            if value < DECOYS:
                self.taken[ask[1]] = number, ask[2]
        elif word == "reply":
            session.verified = session.user
            self.accepted[session.user].append(value)
        elif word == "abandon":
            session.is_taken = False
        elif word == "grant":
            session.open[value] = ask[1]
        elif word == "close":
            del session.open[ask[1]]

    def may_follow(self, worker, session, ask, decision):
        """Whether an event of a log may stand after those so far. Of a reply the log shows no
        readings, so where they decide each decision that some readings lead to may stand."""
        number = self.open.get(worker, 0)
        if worker >= self.setup.workers:
            return False
        is_opening = ask[0] == "open" and decision[0] == "permit"
        if session != (self.openings + 1 if is_opening else number):
            return False
        decided = self.decide(worker, ask)
        if ask[0] != "reply" or decided != ("deny", 14, 0):
            return decision == decided
        found = self.sessions[number]
        is_decoy = found.value >= DECOYS
        if decision[0] == "permit":
            return not is_decoy and self.is_next(found.user, decision[1])
        return decision[2] == 0 and decision[1] in ((14, 16) if is_decoy else (14, 15, 16))


EVENTS = 1048576  # a run makes at most so many


def audit(setup, text):
    """What is to be said of a log: `yes N`, or `no LINE why` of its first fault."""
    policy, place = Policy(setup), 0
    for line in re.findall(rb"[^\n]*\n|[^\n]+", text):
        place += 1
        if place > EVENTS:
            return f"no {place} count"
        try:
            number, worker, session, ask, decision = read_line(line)
        except Unreadable:
            return f"no {place} text"
        if number != place:
            return f"no {place} count"
        if not policy.may_follow(worker, session, ask, decision):
            return f"no {place} event"
        policy.settle(worker, ask, decision)
    return f"yes {place}"
