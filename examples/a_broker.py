"""A broker of RabbitMQ on ports of its own, and a proxy before it whose links can be broken, for examples/faults."""
import os, pathlib, select, signal, socket, subprocess, tempfile, threading, time

server = "/usr/lib/rabbitmq/bin/"


def free_port():
    with socket.create_server(("127.0.0.1", 0)) as s:
        return s.getsockname()[1]


state = pathlib.Path(tempfile.mkdtemp())
port, node_port, names_port = free_port(), free_port(), free_port()
broker_env = dict(
    os.environ, HOME=str(state), ERL_EPMD_PORT=str(names_port), ERL_EPMD_ADDRESS="127.0.0.1",
    RABBITMQ_NODENAME="faults@localhost", RABBITMQ_NODE_IP_ADDRESS="127.0.0.1", RABBITMQ_NODE_PORT=str(port),
    RABBITMQ_DIST_PORT=str(node_port), RABBITMQ_MNESIA_BASE=str(state / "data"), RABBITMQ_LOG_BASE=str(state / "log"),
    RABBITMQ_ENABLED_PLUGINS_FILE=str(state / "plugins"), RABBITMQ_CONF_ENV_FILE=str(state / "environment"))


def listens(at):
    try:
        socket.create_connection(("127.0.0.1", at), 1).close()
        return True
    except OSError:
        return False


def within(seconds, test):
    until = time.monotonic() + seconds
    while not test():
        if time.monotonic() > until:
            return False
        time.sleep(0.05)
    return True


class Broker:
    """A node in a group of processes of its own, which keeps its port and its state when it is started again."""

    def __init__(self):
        (state / "plugins").write_text("[].\n")
        (state / "environment").write_text("")
        self.names = subprocess.Popen(["epmd", "-port", str(names_port), "-address", "127.0.0.1"],
                                      stdout=subprocess.DEVNULL, stderr=subprocess.DEVNULL)
        within(30, lambda: listens(names_port))
        self.start()

    def start(self):
        self.process = subprocess.Popen([server + "rabbitmq-server"], env=broker_env, stdout=subprocess.DEVNULL,
                                        stderr=subprocess.DEVNULL, start_new_session=True)
        if not within(180, lambda: listens(port)):
            self.kill()
            self.names.kill()
            raise TimeoutError("no broker")

    def signal(self, how):
        os.killpg(self.process.pid, how)

    def kill(self):
        self.signal(signal.SIGKILL)
        self.process.wait()
        within(30, lambda: not listens(port))

    def end(self):
        self.process.send_signal(signal.SIGTERM)
        self.process.wait(180)

    def control(self, *words):
        return subprocess.run([server + "rabbitmqctl", "-q", *words], env=broker_env, capture_output=True, text=True,
                              timeout=120).stdout

    def close(self):
        self.end()
        self.names.kill()


class Proxy:
    """Passes octets on, so many a second and at most so many at once, and breaks its links where it is told to."""

    def __init__(self, rate=1 << 30, piece=65536):
        self.listener = socket.create_server(("127.0.0.1", 0))
        self.port = self.listener.getsockname()[1]
        self.links, self.rate, self.piece, self.holds = [], rate, piece, False
        threading.Thread(target=self.accept, daemon=True).start()

    def accept(self):
        while True:
            near, _ = self.listener.accept()
            try:
                far = socket.create_connection(("127.0.0.1", port))
            except OSError:
                near.close()
                continue
            self.links.append((near, far))
            for one, other in ((near, far), (far, near)):
                one.setsockopt(socket.IPPROTO_TCP, socket.TCP_NODELAY, 1)
                threading.Thread(target=self.carry, args=(one, other), daemon=True).start()

    def carry(self, one, other):
        try:
            # What is waited for without an end keeps a socket from being broken off.
            while one.fileno() >= 0:
                if not select.select([one], [], [], 0.1)[0]:
                    continue
                octets = one.recv(self.piece)
                if not octets:
                    break
                if self.piece > 1:
                    time.sleep(0.002 + len(octets) / self.rate)
                while self.holds:
                    time.sleep(0.05)
                other.sendall(octets)
        except (OSError, ValueError):
            pass
        for end in (one, other):
            try:
                end.shutdown(socket.SHUT_RDWR)
            except OSError:
                pass

    def cut(self, resets):
        for pair in self.links:
            for end in pair:
                try:
                    if resets:
                        end.setsockopt(socket.SOL_SOCKET, socket.SO_LINGER, b"\1\0\0\0\0\0\0\0")
                        end.close()
                    else:
                        end.shutdown(socket.SHUT_RDWR)
                except OSError:
                    pass
        self.links = []
