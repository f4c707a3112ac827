"""What the scripts of bench/ share: the program, a monitor that runs, and what the system says of it."""
import collections, contextlib, os, shutil, signal, socket, subprocess, sys, tempfile, time

TOP = os.path.dirname(os.path.dirname(os.path.dirname(os.path.abspath(__file__))))
LIMIT = float(os.environ.get("LIMIT", "60"))  # seconds for each wait


def stop(why, status=1):
    print(f"{os.path.basename(os.path.dirname(os.path.abspath(sys.argv[0])))}: {why}", file=sys.stderr)
    sys.exit(status)


def program():
    """The path of the program: OTPLOGD, or the proved one of this text."""
    found = [os.path.join(TOP, "build"), "--find"]
    path = subprocess.run(found, stdout=subprocess.PIPE, text=True).stdout.strip()
    if not os.access(path, os.X_OK):
        stop("the program is not built; ./build builds it", 3)
    return path


def tool(name):
    """The path of a command, or none."""
    return shutil.which(name)


def build(source, target, *flags):
    """Compiles a program or a library in C, whose source lies beside the script."""
    source = os.path.join(os.path.dirname(os.path.abspath(sys.argv[0])), source)
    cc = tool(os.environ.get("CC", "cc"))
    if cc is None:
        stop("a C compiler is missing", 3)
    subprocess.run([cc, "-O2", "-Wall", "-Wextra", "-o", target, source, *flags], check=True)
    return os.path.abspath(target)


@contextlib.contextmanager
def room():
    """A folder to run in, with a vault and a word list, which is removed after the run."""
    import policy
    before = os.getcwd()
    with tempfile.TemporaryDirectory() as folder:
        os.chdir(folder)
        os.mkdir("vault")
        write("words", policy.WORDS)
        try:
            yield folder
        finally:
            os.chdir(before)


def write(path, text):
    with open(path, "wb" if isinstance(text, bytes) else "w") as file:
        file.write(text)


def read(path):
    with open(path, "rb") as file:
        return file.read()


def read_log(path):
    """The lines of a log, without those by which the program says how its run went."""
    return b"".join(line for line in read(path).splitlines(keepends=True) if not line.startswith(b"otplogd: "))


def kept(*paths):
    """Copies files of a run that went wrong to a folder that stays, and names it."""
    folder = tempfile.mkdtemp(prefix="otplogd-")
    for path in paths:
        if os.path.exists(path):
            copy = shutil.copytree if os.path.isdir(path) else shutil.copy
            copy(path, os.path.join(folder, os.path.basename(path)))
    return folder


def keep(uid, name, text):
    """Puts a user's file into the vault."""
    os.makedirs(f"vault/{uid}", exist_ok=True)
    write(f"vault/{uid}/{name}", text)


@contextlib.contextmanager
def running(words, log="log", **more):
    """A program that listens on a Unix socket, with its log in a file. It is killed at last."""
    with open(log, "wb") as file, open("printed", "wb") as printed:
        child = subprocess.Popen(words, stdin=subprocess.DEVNULL, stdout=printed, stderr=file,
                                 start_new_session=True, **more)
    try:
        wait_for(lambda: child.poll() is not None or is_listening(child.pid), "socket")
        if child.poll() is not None:
            raise RuntimeError(f"it ended with {ending(child.returncode)}: {read(log)[-500:]!r}")
        yield child
    finally:
        if child.poll() is None:
            child.kill()
            child.wait()


def descriptors(pid):
    """What a process's descriptors lead to, and how many lead there."""
    links = []
    for number in os.listdir(f"/proc/{pid}/fd"):
        with contextlib.suppress(FileNotFoundError):
            links.append(os.readlink(f"/proc/{pid}/fd/{number}"))
    return collections.Counter(links)


def is_listening(pid):
    """Whether a process listens on a Unix socket, without a connection that would count. The sockets of other processes
    may have the same name, since the system keeps a relative one as it was given."""
    with open("/proc/net/unix") as sockets:
        listening = {f"socket:[{words[6]}]" for words in map(str.split, sockets) if words[3] == "00010000"}
    try:
        return not listening.isdisjoint(descriptors(pid))
    except OSError:  # it has ended
        return False


def wait_for(is_there, what, limit=LIMIT):
    end = time.monotonic() + limit
    while not (found := is_there()):
        if time.monotonic() > end:
            raise TimeoutError(f"there is no {what} within {limit} seconds")
        time.sleep(0.002)
    return found


def others(pid):
    """The processes of a session besides its leader, and the leader's children in sessions of their own."""
    found = []
    for number in filter(str.isdigit, os.listdir("/proc")):
        try:
            words = read(f"/proc/{number}/stat").rsplit(b")", 1)[1].split()
        except OSError:
            continue
        if pid in (int(words[1]), int(words[3])) and int(number) != pid:
            found.append(int(number))
    return found


def ending(status):
    """How a program ended."""
    return f"signal {signal.Signals(-status).name}" if status < 0 else f"status {status}"


def connect(path="socket", limit=LIMIT):
    client = socket.socket(socket.AF_UNIX)
    client.settimeout(limit)
    client.connect(path)
    return client


def memory(pid):
    """The lines of /proc/PID/status that tell of memory, in KB."""
    with open(f"/proc/{pid}/status") as file:
        lines = dict(line.split(":", 1) for line in file)
    return {key: int(lines[key].split()[0]) for key in ("VmPeak", "VmHWM", "VmRSS", "Threads")}
