"""Runs the built programs with each request for memory refused in turn. See refused_memory."""
import os
import signal
import subprocess
import sys
import tempfile
import time

# so long for one program and one input
SECONDS = 25
NO_MEMORY = 5

ORDER = (
    "<mos><mosID>d</mosID><ncsID>n</ncsID><messageID>{}</messageID><roCreate><roID>R</roID><roSlug>S &amp; T</roSlug>"
    "<story><storyID>A</storyID><storySlug>a</storySlug><item><itemID>1</itemID><objID>O1</objID><mosID>d</mosID>"
    "<mosExternalMetadata><x>1</x></mosExternalMetadata></item></story><story><storyID>B</storyID></story></roCreate></mos>"
)
ACTION = (
    '<mos><mosID>d</mosID><ncsID>n</ncsID><messageID>{}</messageID><roElementAction operation="{}"><roID>R</roID>{}'
    "<element_source>{}</element_source></roElementAction></mos>"
)


def stream():
    target = "<element_target><storyID>A</storyID></element_target>"
    return "".join(
        [
            "<mos><mosID>d</mosID><ncsID>n</ncsID><heartbeat><time>2009-04-11T14:22:07Z</time></heartbeat></mos>",
            ORDER.format(1),
            ACTION.format(2, "INSERT", target, "<story><storyID>C</storyID></story>"),
            ACTION.format(3, "MOVE", target, "<storyID>B</storyID>"),
            ACTION.format(4, "SWAP", "", "<storyID>A</storyID><storyID>C</storyID>"),
            ACTION.format(5, "DELETE", "", "<storyID>B</storyID>"),
            "<mos><mosID>d</mosID><ncsID>n</ncsID><roReadyToAir><roID>R</roID><roAir>READY</roAir></roReadyToAir></mos>",
            "<mos><mosID>d</mosID><ncsID>n</ncsID><roDelete><roID>Q</roID></roDelete></mos>",
            "<mos><mosID>d</mosID><ncsID>n</ncsID><mosObj><objID>O</objID><objSlug>o</objSlug></mosObj></mos>",
        ]
    ).encode("utf-16-be")


def run(words, given, shim, refuse, on):
    with tempfile.NamedTemporaryFile() as count:
        environment = {"LD_PRELOAD": shim, "REFUSE": str(refuse), "COUNT": count.name}
        if on:
            environment["REFUSE_ON"] = "1"
        ran = subprocess.run(words, input=given, capture_output=True, env=environment, timeout=60)
        text = open(count.name).read().strip()
    return ran.returncode, ran.stdout, int(text) if text else 0


def try_all(name, words, given, shim):
    began = time.time()
    status, wanted, total = run(words, given, shim, 0, False)
    if total == 0:
        print(f"skipped {name}: its requests for memory can't be counted")
        return 0
    runs = refused = faults = 0
    # where there are many, the first ones each, and of the others as many as the time allows
    numbers = list(range(1, min(total, 400) + 1)) + list(range(401, total + 1, max(1, (total - 400) // 400)))
    for refuse in numbers:
        for on in (False, True):
            if time.time() - began > SECONDS:
                break
            ended, wrote, _ = run(words, given, shim, refuse, on)
            runs += 1
            is_whole = ended == status and wrote == wanted
            is_refused = ended == NO_MEMORY and wanted.startswith(wrote)
            refused += is_refused
            if not is_whole and not is_refused:
                faults += 1
                print(f"FAULT {name}: request {refuse}{' and all later ones' if on else ''}: status {ended}, {len(wrote)} bytes")
    print(f"ok {name}: {total} requests, {runs} runs, {refused} told of want of memory, {faults} faults")
    return faults


def tests_of(program):
    """The names of the tests that a built program of tests has."""
    ran = subprocess.run([program, "--list"], capture_output=True, text=True, timeout=60)
    return [line.removesuffix(": test") for line in ran.stdout.split("\n") if line.endswith(": test")]


def try_tests(name, program, shim):
    """Runs the tests of the codec and of both machines with each request refused in turn: a test may fail, since it wants its
    answer, and then aborts, but it ends by no other signal."""
    began = time.time()
    tests = runs = faults = 0
    for test in tests_of(program):
        status, _, total = run([program, test], b"", shim, 0, False)
        if status != 0 or total == 0:
            print(f"skipped {name} {test}: status {status}, {total} requests")
            continue
        tests += 1
        step = max(1, total // 200)
        for refuse in range(1, total + 1, step):
            if time.time() - began > SECONDS * 2:
                break
            ended, _, _ = run([program, test], b"", shim, refuse, False)
            runs += 1
            if ended < 0 and ended != -signal.SIGABRT:
                faults += 1
                print(f"FAULT {name} {test}: request {refuse}: signal {-ended}")
    print(f"ok {name}: {tests} tests, {runs} runs, {faults} faults")
    return faults


def main(top, built, shim):
    texts = stream()
    cases = [("take", "take", texts), ("show", "show", texts), ("check", "check", texts)]
    for name in ("cut.script", "ready.script"):
        with open(f"{top}/examples/{name}", "rb") as it:
            cases.append((f"replay {name}", "replay", it.read()))
    cases.append(("make 40", "make 40", b""))
    faults = 0
    for ending in ("", ".by-rattle"):
        program = f"{built}/crates/mos_replay/out/mos_replay{ending}"
        for name, words, given in cases:
            if not os.access(program, os.X_OK):
                print(f"skipped {name}{ending}: it isn't built")
                continue
            faults += try_all(name + ending, [program, *words.split(" ")], given, shim)
        program = f"{built}/crates/mos_canonical/out/mos_canonical{ending}"
        if os.access(program, os.X_OK):
            faults += try_all(f"mos_canonical{ending}", [program], texts, shim)
    for name in ("codec_tests", "machine_tests", "port_tests"):
        program = f"{built}/crates/{name}/out/{name}_tests"
        if os.access(program, os.X_OK):
            faults += try_tests(name, program, shim)
        else:
            print(f"skipped {name}: it isn't built")
    return 1 if faults else 0


if __name__ == "__main__":
    sys.exit(main(*sys.argv[1:]))
