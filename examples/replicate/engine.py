"""Three nodes of RabbitMQ on this machine, of Debian's package rabbitmq-server, in a folder of their own: a cluster that any one of them may leave."""
import os
import pathlib
import shutil
import signal
import subprocess
import time

BIN = pathlib.Path("/usr/lib/rabbitmq/bin")
NODES = [1, 2, 3]
PORTS = {node: 27671 + node for node in NODES}
# The seconds that a node may take to start.
STARTS = 300


class Engine:
    def __init__(self, room):
        self.room = pathlib.Path(room)
        self.room.mkdir(exist_ok=True)
        (self.room / ".erlang.cookie").write_text("REPLICATETHESTORE")
        (self.room / ".erlang.cookie").chmod(0o400)
        self.run = {}

    def surroundings(self, node):
        """Returns the environment of a node: its name, its ports and where its files lie."""
        home = self.room / f"node{node}"
        home.mkdir(exist_ok=True)
        (home / "plugins").write_text("[].\n")
        (home / "rabbitmq.conf").write_text("cluster_partition_handling = ignore\nlog.console = false\n")
        return dict(
            os.environ,
            HOME=str(self.room),
            ERL_CRASH_DUMP=str(home / "erl_crash.dump"),
            RABBITMQ_NODENAME=self.name(node),
            RABBITMQ_NODE_PORT=str(PORTS[node]),
            RABBITMQ_DIST_PORT=str(PORTS[node] + 20000),
            RABBITMQ_MNESIA_BASE=str(home),
            RABBITMQ_LOG_BASE=str(home),
            RABBITMQ_PID_FILE=str(home / "pid"),
            RABBITMQ_ENABLED_PLUGINS_FILE=str(home / "plugins"),
            RABBITMQ_CONFIG_FILE=str(home / "rabbitmq"),
            RABBITMQ_SERVER_ADDITIONAL_ERL_ARGS="+S 2:2",
        )

    def name(self, node):
        return f"follow{node}@localhost"

    def ask(self, node, *words):
        """Has the node do something, and returns whether it did."""
        line = [BIN / "rabbitmqctl", "-q", "-n", self.name(node), *words]
        return subprocess.run(line, env=self.surroundings(node), stdout=subprocess.DEVNULL, stderr=subprocess.DEVNULL).returncode == 0

    def control(self, node, *words):
        if not self.ask(node, *words):
            raise SystemExit(f"engine: node {node} refuses {' '.join(words)}")

    def launch(self, node):
        with open(self.room / f"node{node}.out", "ab") as out:
            self.run[node] = subprocess.Popen([BIN / "rabbitmq-server"], env=self.surroundings(node), stdout=out, stderr=out, start_new_session=True)

    def wait_for(self, node):
        """Comes back when the node serves."""
        end = time.monotonic() + STARTS
        while time.monotonic() < end and self.run[node].poll() is None:
            if self.ask(node, "await_startup", "--timeout", "60"):
                return
            time.sleep(0.5)
        told = (self.room / f"node{node}.out").read_text(errors="replace")[-1000:]
        raise SystemExit(f"engine: node {node} does not start: {told}")

    def start(self, node):
        self.launch(node)
        self.wait_for(node)

    def __enter__(self):
        try:
            self.begin()
        except BaseException:
            self.end()
            raise
        return self

    def __exit__(self, *_):
        self.end()

    def begin(self):
        """Starts all nodes, and joins them."""
        for node in NODES:
            self.launch(node)
        for node in NODES:
            self.wait_for(node)
        for node in NODES[1:]:
            self.control(node, "stop_app")
            self.control(node, "join_cluster", self.name(NODES[0]))
            self.control(node, "start_app")

    def kill(self, node):
        """Kills a node as a machine that loses its power would."""
        os.killpg(self.run[node].pid, signal.SIGKILL)
        self.run[node].wait()
        time.sleep(0.5)

    def end(self):
        for node, run in self.run.items():
            if run.poll() is None:
                self.kill(node)
        shutil.rmtree(self.room, ignore_errors=True)
