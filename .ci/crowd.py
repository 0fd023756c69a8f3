"""Many clients of a server, good ones and others; proxies that stand before it; and what is done
to it meanwhile: for served.py.
"""
import contextlib
import ctypes
import fcntl
import os
import re
import shutil
import signal
import socket
import struct
import subprocess
import tempfile
import threading
import time

from processes import AT, PROGRAM, content, status_in, wants

# How many connections a slow one makes.
MANY = 1000


# ---- clients


def connected(port, patience=30):
    return socket.create_connection(("127.0.0.1", port), timeout=patience)


def is_whole(got):
    """Whether these bytes are a response, by the length that it tells."""
    head, end, body = got.partition(b"\r\n\r\n")
    length = re.search(rb"(?i)\r\ncontent-length: (\d+)", head)
    return bool(end and length) and len(body) >= int(length[1])


def one_response(client, got=b""):
    """A response, of a client whose connection may be kept; what came, where that is closed."""
    while not is_whole(got) and (part := client.recv(65536)):
        got += part
    return got.decode()


def answer_to(port, given, patience=30):
    """The response to these bytes."""
    with connected(port, patience) as client:
        client.sendall(given)
        return one_response(client)


def body_of(text):
    return text.partition("\r\n\r\n")[2]


def percentile(times, part):
    """The time that so many of 100 are within."""
    return sorted(times)[min(len(times) - 1, len(times) * part // 100)]


def good_times(port, given, seconds):
    """How long a good client waits for its answers, one after the other for so many seconds, 100 or
    more."""
    until, times = time.monotonic() + seconds, []
    while time.monotonic() < until or len(times) < 100:
        start = time.monotonic()
        wants(status_in(answer_to(port, given)), 200)
        times.append(time.monotonic() - start)
        time.sleep(0.01)
    return times


def told_times(times):
    return f"{1000 * percentile(times, 50):.1f} and {1000 * percentile(times, 99):.1f} ms"


def in_threads(count, call):
    """Calls it in as many threads at once with their numbers. Answers what came, or the fault."""
    came = [None] * count

    def one(number):
        try:
            came[number] = call(number)
        except (AssertionError, OSError, ValueError) as fault:
            came[number] = fault
    threads = [threading.Thread(target=one, args=(number,)) for number in range(count)]
    for thread in threads:
        thread.start()
    for thread in threads:
        thread.join()
    return came


def until_so(fact, what, patience=30):
    """Waits until a fact is one."""
    until = time.monotonic() + patience
    while not fact():
        assert time.monotonic() < until, f"not within {patience} s: {what}"
        time.sleep(0.02)


def shaped(port, given, patience):
    """The status of the response to these bytes, of a client that ends its half where nothing comes
    of them; 0 where no status is told, and None where nothing comes."""
    with connected(port, 0.4) as client:
        got = b""
        with contextlib.suppress(ConnectionResetError, BrokenPipeError):
            client.sendall(given)
            try:
                got = client.recv(65536)
            except TimeoutError:
                client.shutdown(socket.SHUT_WR)
            client.settimeout(patience)
            while (is_interim := got.startswith(b"HTTP/1.1 100")) or not got:
                got = got.partition(b"\r\n\r\n")[2] if is_interim else client.recv(65536)
                if not got and not is_interim:
                    return None
            got = one_response(client, got).encode()
    told = re.match(rb"HTTP/1\.1 (\d{3}) ", got)
    return int(told[1]) if told else 0 if got else None


# ---- what a server takes


def files_of(served):
    """How many files a server has open."""
    return len(os.listdir(f"/proc/{served.process.pid}/fd"))


def memory_of(served):
    """The most memory that a server had, in MiB."""
    status = content(f"/proc/{served.process.pid}/status").decode()
    return int(re.search(r"VmHWM:\s+(\d+) kB", status)[1]) >> 10


def seconds_of(served):
    """How much of the processor's time a server took."""
    fields = content(f"/proc/{served.process.pid}/stat").decode().rpartition(")")[2].split()
    return (int(fields[11]) + int(fields[12])) / os.sysconf("SC_CLK_TCK")


def is_alive(served):
    wants(served.process.poll(), None)


class Watch:
    """Counts how often a file of a folder is given its name, by inotify. What is made there is told
    too, since of events that are the same and follow one another only one is."""

    MOVED_TO, CREATE = 0x80, 0x100

    def __init__(self, folder):
        libc = ctypes.CDLL(None, use_errno=True)
        self.file = libc.inotify_init1(os.O_NONBLOCK)
        assert self.file >= 0 and libc.inotify_add_watch(
            self.file, folder.encode(), self.MOVED_TO | self.CREATE) >= 0, "no inotify"

    def count(self):
        """How many since the last call."""
        events = b""
        with contextlib.suppress(BlockingIOError):
            while True:
                events += os.read(self.file, 65536)
        count = 0
        while events:
            _, mask, _, size = struct.unpack("iIII", events[:16])
            events = events[16 + size:]
            count += mask == self.MOVED_TO
        return count


# ---- proxies

NGINX = """
worker_processes auto;
daemon off;
pid {folder}/nginx.pid;
error_log {folder}/nginx.error;
events {{ worker_connections 768; }}
http {{
    access_log off;
    client_body_temp_path {folder}/body;
    proxy_temp_path {folder}/proxy;
    fastcgi_temp_path {folder}/fastcgi;
    uwsgi_temp_path {folder}/uwsgi;
    scgi_temp_path {folder}/scgi;
    {servers}
}}
"""
NGINX_SERVER = """
    server {{
        listen 127.0.0.1:{port};
        location / {{ proxy_pass http://127.0.0.1:{behind}; }}
        location = /hidden {{ return 403; }}
    }}
"""
HAPROXY = """
defaults
    mode http
    timeout connect 5000
    timeout client 50000
    timeout server 50000
frontend all
    bind 127.0.0.1:{port}
    http-request deny if {{ path /hidden }}
    default_backend controllers
backend controllers
    server one 127.0.0.1:{behind}
"""


def free_port():
    with socket.create_server(("127.0.0.1", 0)) as free:
        return free.getsockname()[1]


@contextlib.contextmanager
def proxy(name, behind):
    """The port of a proxy that stands before another, with what Debian gives it where nothing has
    to be told."""
    port, text = free_port(), {"nginx": NGINX_SERVER, "haproxy": HAPROXY}[name]
    with proxy_of(name, text.format(port=port, behind=behind), [port]):
        yield port


@contextlib.contextmanager
def proxy_of(name, text, ports):
    """A proxy with this configuration, of nginx its servers, that listens on these ports."""
    folder = tempfile.mkdtemp()
    path = os.path.join(folder, "config")
    with open(path, "w", encoding="utf-8") as file:
        file.write(NGINX.format(folder=folder, servers=text) if name == "nginx" else text)
    os.chmod(folder, 0o777)
    words = {"nginx": ["nginx", "-p", folder, "-c", path],
             "haproxy": ["haproxy", "-db", "-f", path]}
    with open(os.path.join(folder, "told"), "wb") as told:
        process = subprocess.Popen(words[name], stdout=told, stderr=told)
    try:
        until_so(lambda: process.poll() is not None or all(map(is_listening, ports)),
                 f"{name} listens")
        assert process.poll() is None, content(folder + "/told")[-300:]
        yield
    finally:
        process.terminate()
        process.wait()
        shutil.rmtree(folder, ignore_errors=True)


def is_listening(port):
    with contextlib.suppress(OSError):
        connected(port, 1).close()
        return True
    return False


@contextlib.contextmanager
def before(name, served):
    """The port to ask: of the server itself, or of a proxy."""
    if name == "nothing":
        yield served.port
    else:
        with proxy(name, served.port) as port:
            yield port


# ---- slow clients


@contextlib.contextmanager
def slowhttptest(port, *words):
    """A thousand slow connections of one kind."""
    command = ["slowhttptest", "-c", str(MANY), "-r", str(MANY), "-l", "60", "-p", "5", *words,
               "-u", f"http://127.0.0.1:{port}/jmf"]
    slow = subprocess.Popen(command, stdout=subprocess.DEVNULL, stderr=subprocess.DEVNULL)
    try:
        yield
    finally:
        slow.send_signal(signal.SIGKILL)
        slow.wait()


@contextlib.contextmanager
def beside(count, call):
    """Calls it again and again in so many threads, until the end."""
    is_over = threading.Event()

    def again():
        while not is_over.is_set():
            with contextlib.suppress(OSError):
                call(is_over)
    threads = [threading.Thread(target=again) for _ in range(count)]
    for thread in threads:
        thread.start()
    try:
        yield
    finally:
        is_over.set()
        for thread in threads:
            thread.join()


def says_nothing(port):
    """A client that connects, waits until it is closed, and comes again at once."""
    def call(is_over):
        with connected(port, 0.2) as client:
            while not is_over.is_set():
                with contextlib.suppress(TimeoutError):
                    client.recv(1)
                    return
    return call


@contextlib.contextmanager
def that_stay(port, count, given):
    """So many clients that send this and stay."""
    with contextlib.ExitStack() as stack:
        for _ in range(count):
            client = stack.enter_context(connected(port))
            client.sendall(given)
        yield


# ---- what is done to a server


@contextlib.contextmanager
def locked(path, how=fcntl.LOCK_EX):
    """A lock of another process's file."""
    with open(path, "ab") as file:
        fcntl.flock(file, how)
        yield


@contextlib.contextmanager
def open_order(path):
    """An order whose input is still to come."""
    command = subprocess.Popen([PROGRAM, "order", path, "--at", AT], stdin=subprocess.PIPE,
                               stdout=subprocess.DEVNULL, stderr=subprocess.DEVNULL)
    time.sleep(0.2)
    try:
        yield
    finally:
        command.kill()
        command.wait()


@contextlib.contextmanager
def injected(served, what):
    """A server into whose calls of the system something is put."""
    pid = str(served.process.pid)
    strace = subprocess.Popen(["strace", "-f", "-qq", "-o", "/dev/null", "-p", pid,
                               "-e", "inject=" + what], stderr=subprocess.PIPE)
    traced = f"/proc/{served.process.pid}/status"
    try:
        until_so(lambda: b"TracerPid:\t0\n" not in content(traced), "strace attaches", 10)
        time.sleep(0.2)
        yield
    finally:
        strace.terminate()
        strace.wait()
        strace.stderr.close()
