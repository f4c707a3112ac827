"""Whole logins by clients in C, side by side: what bench/logins and bench/scale share."""
import contextlib, functools, os, re, subprocess, tempfile
import policy, serving

SEQUENCE = 999
FILE = b"hello there\n"
FREE = "-ffreestanding", "-fno-stack-protector", "-nostdlib", "-static"  # of the launcher, which uses no library


@functools.lru_cache(maxsize=None)
def account_of(number, sequence=SEQUENCE):
    return policy.Account(f"u{number}", 1000 + number, "md5", sequence)


@contextlib.contextmanager
def tools():
    """A folder with the client and, for root, the compiled launcher. The children reach it."""
    with tempfile.TemporaryDirectory() as folder:
        os.chmod(folder, 0o711)
        serving.build(f"{serving.TOP}/bench/logins/client.c", f"{folder}/client", "-pthread")
        if os.geteuid() == 0:
            serving.build(f"{serving.TOP}/examples/launcher.c", f"{folder}/launcher", *FREE)
        yield folder


class Load:
    """Clients, each of which logs in so many times, one after another, and a setup with a worker for each, which serves
    just that. Other keys of the setup may be given, and how many accounts it has: the further ones never log in."""

    def __init__(self, folder, launcher, clients, logins, accounts=0, **keys):
        self.client, self.clients, self.logins = f"{folder}/client", clients, logins
        users = [account_of(number) for number in range(clients)]
        idle = [account_of(number, 1) for number in range(clients, accounts)]
        self.setup = policy.Setup(users + idle, **{"socket": os.path.abspath("socket"), "launcher": launcher,
                                                   "workers": clients, "connections": logins, **keys})

    def write(self):
        """Writes the setup, and the users' files."""
        serving.write("setup", self.setup.toml())
        for account in self.setup.accounts[:self.clients]:
            serving.keep(account.uid, "notes", FILE)

    def users(self):
        """What the clients read: names, and passwords in the order in which they are asked for."""
        lines = []
        for account in self.setup.accounts[:self.clients]:
            passwords = [account.chain[SEQUENCE - 1 - i].hex() for i in range(self.logins)]
            lines.append(" ".join([account.name, *passwords]) + "\n")
        return "".join(lines)

    def log_in(self):
        """Has the clients log in, at a server that runs: the logins a second."""
        ran = subprocess.run([self.client, self.setup.socket, str(self.logins)], input=self.users(), text=True,
                             stdout=subprocess.PIPE, timeout=600)
        if ran.returncode != 0:
            raise RuntimeError(f"a client failed; see {serving.kept('setup', 'log')}")
        return self.clients * self.logins / float(ran.stdout)

    def check(self):
        """Looks for as many permitted replies in the log."""
        permitted = len(re.findall(rb" reply permit ", serving.read("log")))
        if permitted != self.clients * self.logins:
            raise RuntimeError(f"{permitted} replies were permitted; see {serving.kept('setup', 'log')}")

    def run(self, words, **more):
        """One run of a server, which has to end well: the logins a second."""
        self.write()
        with serving.running(words, **more) as running:
            rate = self.log_in()
            if status := running.wait(serving.LIMIT):
                raise RuntimeError(f"{words[0]} ended with {serving.ending(status)}")
        self.check()
        return rate


def in_a_second(rate, clients):
    """How many logins of each client take about a second at that rate."""
    return max(5, min(200, int(rate / clients)))
