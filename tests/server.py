"""A Redis server over which the sites of a test's shop are linked."""

from measure_shop import free_port
from tests.folder import SALE, Folder
from tests.needs import need


class Server:
    """A Redis server of a test, and a shop of three sites over it: 0 and 1 in the folder a, 2 in the folder b."""

    def __init__(self, at: Folder, *options: str) -> None:
        need("redis-server", "redis-cli", "python3:redis")
        self.port = free_port()
        self.at, self.options = at, " ".join(options)
        self.over = f"redis://127.0.0.1:{self.port}/auction"
        self.start()

    def start(self) -> None:
        words = f"--port {self.port} --bind 127.0.0.1 --appendonly yes --save ''"
        self.process = self.at.start(f"redis-server {words} {self.options}")
        self.at.wait("the server", lambda: self.say("ping") == "PONG\n")

    def say(self, words: str) -> str:
        return self.at.run(f"redis-cli -p {self.port} {words}; true")

    def kill(self) -> None:
        self.at.kill(self.process.pid)

    def start_shop(self) -> "Server":
        self.at.run(f"./shop start a --sites 3 --here 0,1 --over {self.over}")
        self.at.run(f"./shop start b --sites 3 --here 2 --over {self.over}")
        return self

    def start_apart(self) -> "Server":
        """A shop of three machines, with a site each, and something sold at site 0."""
        for site, folder in enumerate("abc"):
            self.at.run(f"./shop start {folder} --sites 3 --here {site} --over {self.over}")
        self.at.shop(f"ask 0 {SALE}", folder="a")
        return self

    def start_sale(self) -> "Server":
        """The same, with something sold at site 0."""
        self.start_shop().at.shop(f"ask 0 {SALE} --published", folder="a")
        return self
