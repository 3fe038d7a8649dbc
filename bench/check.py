#!/usr/bin/env python3
"""How long `tdl compile` takes over large programs: reading, the rules and the program that is made.

    bench/check.py --bin CMD [--times N]

CMD is the built program, as crates/tdl_app/out/tdl_app after ./tdl has built it. Each case is made in a folder
of its own and compiled N times (3 by default). Printed are the case, the sizes, the answer and the least wall
time in seconds. No part of the gate.
"""
import argparse
import os
import subprocess
import tempfile
import time

SOURCE_BYTES = 262144
ALL_BYTES = 1048576
OCCURRENCES = 16384
SOURCES = 64


def filled(text, size):
    """The source with a comment at its end, so that it has `size` bytes."""
    return text + "\n//" + "x" * (size - len(text) - 4) + "\n"


def task(name, statements=0):
    body = "".join(f" o := o + {n};" for n in range(statements))
    return f"task {name} [wcet=1us] {{ input int a; output int o;{body} }}\n"


def many_sources():
    """64 sources, 16 KiB each, 256 occurrences each: together as much as a program may have."""
    texts = []
    for m in range(SOURCES):
        parts = [f"module M{m} {{\nsensor int s;\nactuator int a;\n", task("t", 600)]
        parts.append("start mode go [period=1ms] {\n task [freq=125] t(s);\n update [freq=125] a := t.o;\n")
        parts.append(" switch [freq=1] to back;\n}\nmode back [period=1ms] {\n switch [freq=5] to go;\n}\n}\n")
        texts.append(filled("".join(parts), ALL_BYTES // SOURCES))
    return texts


def invocations_of_one_task():
    """Activities that each take one slot of a thousand: every two are compared."""
    parts = ["module M {\nsensor int s;\n", task("t"), "start mode go [period=10ms] {\n"]
    parts += [f"task[freq=1000,slots={n}]t(s);\n" for n in range(1, 1001)]
    parts.append("}\n")
    for k in range(7):
        parts.append(f"mode m{k} [period=10ms] {{\n")
        parts += [f"task[freq=1000,slots={n}]t(s);\n" for n in range(1, 1001)]
        parts.append("}\n")
    return ["".join(parts) + "}\n"]


def updates_of_one_mode():
    """Updates of eight actuators in one mode: every two of one actuator are compared."""
    parts = ["module M {\n"] + [f"actuator int a{k};\n" for k in range(8)]
    parts.append("start mode go [period=1s] {\n")
    parts += [f"update[freq=1000,slots={n}]a{k}:={n};\n" for k in range(8) for n in range(1, 901)]
    return ["".join(parts) + "}\n}\n"]


def more_invocations_than_may_be():
    """A switch among activities that ask for ten million logical execution times."""
    head = "module M {\nsensor int s;\n" + task("t") + "start mode go [period=10s] {\nswitch[freq=1000]to back;\n"
    tail = "}\nmode back [period=10s] { }\n}\n"
    call = "task[freq=1000]t(s);\n"
    return [head + call * ((SOURCE_BYTES - len(head) - len(tail)) // len(call)) + tail]


def many_ports():
    """A task with as many ports as it may have, which thousands of activities name."""
    ports = "".join(f"input int i{k};" for k in range(32)) + "".join(f"output int o{k};" for k in range(32))
    arguments = ",".join("0" for _ in range(32))
    parts = [f"module M {{\ntask t [wcet=1us] {{ {ports} }}\nstart mode go [period=10ms] {{\n"]
    parts += [f"task[freq=1000,slots={n}]t({arguments});\n" for n in range(1, 1001)]
    parts.append("}\nmode other [period=10ms] {\n")
    parts += [f"task[freq=1000,slots={n}]t({arguments});\n" for n in range(1, 1001)]
    return ["".join(parts) + "}\n}\n"]


CASES = [many_sources, invocations_of_one_task, updates_of_one_mode, more_invocations_than_may_be, many_ports]


def run(command, texts, times):
    with tempfile.TemporaryDirectory() as folder:
        names = []
        for place, text in enumerate(texts):
            assert len(text) <= SOURCE_BYTES, (place, len(text))
            name = os.path.join(folder, f"S{place}.tdl")
            with open(name, "w") as file:
                file.write(text)
            names.append(name)
        words = [command, "compile", *names, "--out", os.path.join(folder, "out.bundle")]
        best, answer = None, ""
        for _ in range(times):
            begin = time.perf_counter()
            done = subprocess.run(words, capture_output=True, text=True)
            took = time.perf_counter() - begin
            best = took if best is None else min(best, took)
            answer = f"{done.returncode} {done.stderr.strip().replace(folder + '/', '')}"
        return best, answer


def main():
    parser = argparse.ArgumentParser(description=__doc__, formatter_class=argparse.RawDescriptionHelpFormatter)
    parser.add_argument("--bin", required=True)
    parser.add_argument("--times", type=int, default=3)
    words = parser.parse_args()
    print(f"{'case':30} {'sources':>7} {'bytes':>8} {'seconds':>8}  answer")
    for case in CASES:
        texts = case()
        best, answer = run(os.path.abspath(words.bin), texts, words.times)
        print(f"{case.__name__:30} {len(texts):7} {sum(map(len, texts)):8} {best:8.2f}  {answer}")


if __name__ == "__main__":
    main()
