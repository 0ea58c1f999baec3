"""Measures gathering over Links: see gathering.sh."""
import json
import os
import shutil
import socket
import statistics
import subprocess
import sys
import tempfile
import time

DOCUMENTS, TIMES, TEXT, PARTS = 4096, 9, 8_300_000, 8
GOAL_TIME, GOAL_MEMORY = 1.5, 12.0


def free_port():
    """A port at which nobody listens."""
    with socket.create_server(("127.0.0.1", 0)) as held:
        return held.getsockname()[1]


PORT = free_port()


def generic(kind, value):
    return {"generic-metadata-type": kind, "generic-metadata-value": value}


def source(number):
    return generic("MI.SourceMetadata", {"sources": [{"endpoints": [f"origin{number}.example:8080"], "protocol": "http/1.1"}]})


def paths(part, size):
    """Paths with sources, padded so that 10,000 objects suffice."""
    numbers = range(part * 10000, part * 10000 + size // 1760)
    return {"paths": [{"path-pattern": {"pattern": f"/{n}/*"}, "path-metadata": {"metadata": [source(n)], "note": "x" * 1500}} for n in numbers]}


def blocks(part, size):
    """One location list of many blocks."""
    values = [f"10.{n // 256 % 256}.{n % 256}.0/24" for n in range(size // 17)]
    return {"metadata": [generic("MI.LocationACL", {"locations": [{"footprints": [{"footprint-type": "ipv4cidr", "footprint-value": values}]}]})]}


def names(part, size):
    """Many long names."""
    return {"metadata": [generic("MI.Cache", {"ignore-query-string": [f"{part}{n:063d}" for n in range(size // 67)]})]}


def windows(part, size):
    """One time list of many windows."""
    return {"metadata": [generic("MI.TimeWindowACL", {"times": [{"windows": [{"start": 1700000000 + n, "end": 1700000100 + n} for n in range(size // 38)]}]})]}


def write(path, value):
    """Writes a document, and tells its length."""
    os.makedirs(os.path.dirname(path), exist_ok=True)
    text = json.dumps(value, separators=(",", ":"))
    with open(path, "w") as file:
        file.write(text)
    return len(text)


def link(number, place):
    return {"host": f"v{number}.example", "host-metadata": {"type": "MI.HostMetadata", "href": place}}


def write_documents(room):
    """Many small documents, and a few large ones of each shape; the lengths of the latter."""
    for number in range(DOCUMENTS):
        write(f"{room}/www/d/{number}", {"metadata": [source(number)]})
    write(f"{room}/www/i", {"hosts": [link(number, f"/d/{number}") for number in range(DOCUMENTS - 1)]})
    lengths = {}
    for shape in (paths, blocks, names, windows):
        name = shape.__name__
        lengths[name] = write(f"{room}/www/{name}/i", {"hosts": [link(part, f"/{name}/{part}") for part in range(PARTS)]})
        for part in range(PARTS):
            lengths[name] += write(f"{room}/www/{name}/{part}", shape(part, TEXT // PARTS))
        assert lengths[name] <= 8388608
    return lengths


def configure(room):
    temporary = "".join(f"{kind}_temp_path {room}/{kind}; " for kind in ("client_body", "proxy", "fastcgi", "uwsgi", "scgi"))
    with open(f"{room}/origin.conf", "w") as file:
        file.write("daemon off; user root; error_log %s/error; pid %s/pid; worker_processes 1; events { worker_connections 1024; }\n" % (room, room))
        file.write("http { access_log off; sendfile on; default_type application/json; %s server { listen 127.0.0.1:%d; root %s/www; } }\n" % (temporary, PORT, room))


def run(program, *words):
    """The seconds of a run, and how many documents it tells."""
    began = time.perf_counter()
    said = subprocess.run([program, "gathering", *words], stdout=subprocess.PIPE, text=True, check=True).stdout
    took = time.perf_counter() - began
    return took, int(said.removesuffix(" documents\n"))


def peak_of(program, *words):
    """The peak of a run's memory in bytes: what the system tells last, asked for all the time until the run ends."""
    process = subprocess.Popen([program, "gathering", *words], stdout=subprocess.DEVNULL)
    peak = 0
    while process.poll() is None:
        with open(f"/proc/{process.pid}/status") as status:
            told = [line for line in status if line.startswith("VmHWM")]
        if told:
            peak = int(told[0].split()[1]) * 1024
    assert process.returncode == 0 and peak > 0
    return peak


def main():
    program, late = sys.argv[1], False
    room = tempfile.mkdtemp(prefix="gathering-", dir="/dev/shm")
    os.chmod(room, 0o755)
    origin = None
    try:
        lengths = write_documents(room)
        configure(room)
        origin = subprocess.Popen(["nginx", "-c", f"{room}/origin.conf"])
        time.sleep(0.5)
        alone, whole = [], []
        for _ in range(TIMES):
            took, count = run(program, "exchange", str(PORT), str(DOCUMENTS))
            assert count == DOCUMENTS, count
            alone.append(took)
            took, count = run(program, "gather", str(PORT), "/i")
            assert count == DOCUMENTS, count
            whole.append(took)
        alone, whole = statistics.median(alone), statistics.median(whole)
        late |= whole > GOAL_TIME * alone
        print(f"{DOCUMENTS} documents: {whole * 1000:.0f} ms, their exchanges alone {alone * 1000:.0f} ms: {whole / alone:.2f} times", flush=True)
        small = min(peak_of(program, "exchange", str(PORT), "100") for _ in range(TIMES))
        for name, length in lengths.items():
            took, count = run(program, "gather", str(PORT), f"/{name}/i")
            assert count == PARTS + 1, count
            times = (max(peak_of(program, "gather", str(PORT), f"/{name}/i") for _ in range(TIMES)) - small) / length
            late |= times > GOAL_MEMORY
            print(f"{name}: {length} bytes in {took * 1000:.0f} ms, {times:.1f} times of memory", flush=True)
    finally:
        if origin is not None:
            origin.terminate()
            origin.wait()
        shutil.rmtree(room, ignore_errors=True)
    sys.exit(1 if late else 0)


if __name__ == "__main__":
    main()
