"""Threads and memory of a server with silent connections; see run."""
import socket
import subprocess
import sys
import tempfile
import time

DEVICES = 64


def free_ports(count):
    held = [socket.socket() for _ in range(count)]
    for s in held:
        s.bind(("127.0.0.1", 0))
    ports = [s.getsockname()[1] for s in held]
    for s in held:
        s.close()
    return ports


def figures(pid):
    with open(f"/proc/{pid}/status") as it:
        rows = dict(line.split(":", 1) for line in it)
    return int(rows["Threads"]), int(rows["VmRSS"].split()[0]), int(rows["VmSize"].split()[0])


def encoded(number, element):
    return f"<mos><mosID>e</mosID><ncsID>ncs1</ncsID><messageID>{number}</messageID>{element}</mos>".encode("utf-16-be")


class Editor:
    def __init__(self, port):
        self.number, self.socket = 0, socket.create_connection(("127.0.0.1", port))
        self.socket.setsockopt(socket.IPPROTO_TCP, socket.TCP_NODELAY, 1)

    def ask(self, element):
        self.number += 1
        before = time.monotonic()
        self.socket.sendall(encoded(self.number, element))
        got = b""
        while not got.endswith("</mos>".encode("utf-16-be")):
            piece = self.socket.recv(65536)
            if not piece:
                sys.exit("the server closed the editor's connection")
            got += piece
        if "<roStatus>OK</roStatus>".encode("utf-16-be") not in got:
            sys.exit(f"the server answered {got.decode('utf-16-be')}")
        return time.monotonic() - before


def middle_command(editor, names):
    times = []
    for name in names:
        story = f"<story><storyID>{name}</storyID></story>"
        target = "<element_target><storyID></storyID></element_target>"
        times.append(editor.ask(f'<roElementAction operation="INSERT"><roID>R</roID>{target}<element_source>{story}</element_source></roElementAction>'))
    return sorted(times)[len(times) // 2]


def main(program, connections):
    folder = tempfile.mkdtemp()
    upper, lower, editor, *far = free_ports(3 + 2 * DEVICES)
    rows = [f'ncs_id = "ncs1"\nlog = "{folder}/journal"\nupper = {upper}\nlower = {lower}\neditor = {editor}\n']
    for i in range(DEVICES):
        rows.append(f'[[devices]]\nmos_id = "dev{i}"\nhost = "127.0.0.1"\nupper = {far[2 * i]}\nlower = {far[2 * i + 1]}\n')
    with open(f"{folder}/ncs.toml", "w") as it:
        it.writelines(rows)
    with open(f"{folder}/err", "wb") as err:
        server = subprocess.Popen([program, f"{folder}/ncs.toml"], stdin=subprocess.DEVNULL, stdout=subprocess.DEVNULL, stderr=err)
    try:
        time.sleep(2)
        person = Editor(editor)
        person.ask("<roCreate><roID>R</roID><roSlug>S</roSlug></roCreate>")
        command = middle_command(person, [f"A{i}" for i in range(101)])
        threads, resident, size = figures(server.pid)
        print(f"{'connections':>12} {'threads':>8} {'resident KiB':>13} {'mapped KiB':>11} {'KiB each':>9} {'command ms':>11}")
        print(f"{0:>12} {threads:>8} {resident:>13} {size:>11} {'-':>9} {1000 * command:>11.2f}")
        silent = [socket.create_connection(("127.0.0.1", (upper, lower, editor)[i % 3])) for i in range(connections)]
        time.sleep(3)
        command = middle_command(person, [f"B{i}" for i in range(101)])
        threads, later, size = figures(server.pid)
        print(f"{connections:>12} {threads:>8} {later:>13} {size:>11} {(later - resident) / connections:>9.1f} {1000 * command:>11.2f}")
        for s in silent:
            s.close()
        time.sleep(3)
        threads, resident, size = figures(server.pid)
        print(f"{'closed':>12} {threads:>8} {resident:>13} {size:>11}")
    finally:
        server.kill()
        server.wait()


main(sys.argv[1], int(sys.argv[2]))
