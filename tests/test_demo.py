"""`make demo`: what it asks of its register is carried out, it says where the page is and which keys are good there, and Ctrl+C ends it."""
import http.client
import json
import re
import signal
import subprocess
import sys

from examples.demo import CLUSTER, REQUESTS
from tests import TOP
from tests.drivers.planned_registers import Register
from tests.drivers.program import SECONDS, program
from tests.drivers.server import HERE, free_port
from tests.runner.case import Case

# The demo, whose files lie in the folder of the test.
BEGUN = "import sys; from pathlib import Path; from examples import demo; demo.FOLDER = Path(sys.argv[1]); demo.main(*sys.argv[2:])"
KEY = re.compile(r"^    (\w+) +\w", re.M)


class Demo(Case):
    """The register, its server, and what is said of them."""

    def test_requests(self):
        register = Register(self.folder, CLUSTER, REQUESTS)
        refused = [(line[:80], answer) for line, answer in register.answered if "ok" not in json.loads(answer)]
        self.see("requests that are refused", [], refused)
        self.see("the variants", "my28 - 1 released\nmy29 my28 2 open\n", register.tell("variants", "car.db"))

    def get(self, port, path, key=""):
        """The status and the kind of a reply."""
        link = http.client.HTTPConnection(HERE, port, timeout=SECONDS)
        try:
            link.request("GET", path, headers={"X-Office-Key": key})
            reply = link.getresponse()
            return reply.status, reply.headers["content-type"]
        finally:
            link.close()

    def begun(self):
        """The demo as it is begun, and what it says."""
        words = [sys.executable, "-c", BEGUN, self.folder / "demo", program(), str(free_port())]
        demo = self.enterContext(subprocess.Popen(words, cwd=TOP, stdin=subprocess.DEVNULL, stdout=subprocess.PIPE, text=True))
        self.addCleanup(demo.kill)
        said = ""
        while "Ctrl+C" not in said and (line := demo.stdout.readline()):
            said += line
        return demo, said

    def test_server(self):
        for turn in "a new register", "the same register":
            demo, said = self.begun()
            port = int(re.search(rf"http://{HERE}:(\d+)/", said)[1])
            self.see(f"{turn}: the page", (200, "text/html; charset=utf-8"), self.get(port, "/"))
            keys = KEY.findall(said)
            self.see("the keys of the integrator and of five suppliers", 6, len(keys))
            self.see("the keys that are good", [200] * 6, [self.get(port, "/v1/variants", key)[0] for key in keys])
            demo.send_signal(signal.SIGINT)
            self.see(f"{turn}: it ends", 0, demo.wait(SECONDS))
            with self.assertRaises(ConnectionRefusedError):
                self.get(port, "/")
