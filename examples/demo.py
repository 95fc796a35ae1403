"""Serves a register to try the planner's page on: python3 -m examples.demo PROGRAM [PORT]. `make demo` runs it.

The register is that of assistance.script, a model year on: my28 is released, my29 is opened from it and changed. It is made in out/demo where it is
not there yet, and what is changed in it stays. Ctrl+C ends the server."""
import json
import shutil
import signal
import socket
import subprocess
import sys
import tomllib
from contextlib import suppress
from pathlib import Path

TOP = Path(__file__).resolve().parent.parent
FOLDER = TOP / "out/demo"
HERE = "127.0.0.1"
PORT = 8080
BOSS, CAMERA, BRAKES = "carmaker01", "camtech001", "brakeworks1"
CLUSTER, FIRST_YEAR = (TOP / "examples/assistance.script").read_text().split("---\n", 1)


def asked(key, what, **fields):
    return f"{key} {json.dumps({'do': what, **fields})}\n"


# In my29 the camera sees walkers, looks for free space half as often, and has no status of its own any more.
SECOND_YEAR = "".join(
    [
        asked(BOSS, "release", variant="my28"),
        asked(BOSS, "open_variant", variant="my29", **{"from": "my28"}),
        asked(BOSS, "grant", variant="my29", slot=17, channel="A", supplier="camtech", node="front_camera"),
        asked(BOSS, "grant", variant="my29", slot=17, channel="B", supplier="camtech", node="front_camera"),
        asked(CAMERA, "add_frame", variant="my29", frame="walkers", node="front_camera"),
        asked(CAMERA, "place", variant="my29", frame="walkers", slot=17, channels="AB", base=0, repetition=2),
        asked(CAMERA, "add_signal", variant="my29", frame="walkers", signal="count", start=0, length=8, order="little"),
        asked(CAMERA, "drop_frame", variant="my29", frame="camera_status"),
        asked(CAMERA, "unplace", variant="my29", frame="free_space", slot=13, channels="B", base=0, repetition=2),
        asked(CAMERA, "place", variant="my29", frame="free_space", slot=13, channels="B", base=0, repetition=4),
    ]
)
REQUESTS = FIRST_YEAR + SECOND_YEAR


def register(program):
    """The register's file, which is made where it is not there yet: beside, so that none is there that was half made."""
    path = FOLDER / "car.db"
    if not path.exists():
        beside = FOLDER.with_name("demo.new")
        for folder in FOLDER, beside:
            shutil.rmtree(folder, ignore_errors=True)
        beside.mkdir(parents=True)
        (beside / "cluster.toml").write_text(CLUSTER)
        subprocess.run([program, "create", beside / "car.db", beside / "cluster.toml"], check=True)
        subprocess.run([program, "ask", beside / "car.db"], input=REQUESTS.encode(), stdout=subprocess.DEVNULL, check=True)
        beside.rename(FOLDER)
    return path


def free_port(first):
    """The first port from this one on at which nobody listens."""
    for port in range(first, 65_536):
        with socket.socket() as one, suppress(OSError):
            one.setsockopt(socket.SOL_SOCKET, socket.SO_REUSEADDR, True)
            one.bind((HERE, port))
            return port
    sys.exit(f"no port from {first} on is free")


def told(port):
    """What is said once it is there."""
    keys = [(BOSS, "the integrator"), *((key, name) for name, key in tomllib.loads(CLUSTER)["suppliers"].items())]
    lines = "".join(f"    {key:12} {name}\n" for key, name in keys)
    return f"""Open this address in a browser:

    http://{HERE}:{port}/

and show one of these keys there:

{lines}
Ctrl+C ends the server. What you change stays in out/demo; remove that folder to begin anew."""


def main(program, port=PORT):
    # (a shell may have its jobs in the background ignore them)
    for number in signal.SIGINT, signal.SIGTERM:
        signal.signal(number, signal.default_int_handler)
    path, port = register(program), free_port(int(port))
    server = subprocess.Popen([program, "serve", path, str(port)], stdout=subprocess.PIPE)
    try:
        if not server.stdout.readline():
            sys.exit(f"it did not start: {' '.join(map(str, server.args))}")
        print(told(port), flush=True)
        server.wait()
    except KeyboardInterrupt:
        print(flush=True)
    finally:
        server.terminate()
        server.wait()


if __name__ == "__main__":
    if len(sys.argv) not in (2, 3) or not all(map(str.isdecimal, sys.argv[2:])):
        sys.exit(__doc__)
    main(*sys.argv[1:])
