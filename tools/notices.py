#!/usr/bin/env python3
"""Says which tool notices which fault: has GDAL, shapelib, pyshp and the Rust crate read every pair of crates/pairs that our checker refuses.

    tools/notices.py > table.md

A tool notices where it ends with an error or prints a warning; it reads where it does neither. Every pair that our checker accepts is read first, and
no tool may say anything of one. Needs Debian's gdal-bin, shapelib and python3-pyshp, rustc, and the oracle (rust/oracle/build); run it with the
system's python3.
"""
import os
import subprocess
import sys

ROOT = os.path.dirname(os.path.dirname(os.path.abspath(__file__)))
DATA = os.path.join(ROOT, "crates", "pairs", "data")
ORACLE = os.path.join(ROOT, "target", "oracle")
PYSHP = """
import sys, shapefile
reader = shapefile.Reader(shp=open(sys.argv[1], "rb"), shx=open(sys.argv[2], "rb"))
reader.shapes()
for i in range(len(reader)):
    reader.shape(i)
"""


def tools():
    reads = os.path.join(ORACLE, "reads")
    subprocess.run(["rustc", "--edition", "2021", "-O", "-L", ORACLE, "--extern", "shapefile=%s/libshapefile.rlib" % ORACLE,
                    "-o", reads, os.path.join(ROOT, "rust", "oracle", "reads.rs")], check=True)
    return {
        "GDAL": lambda shp, shx: ["ogrinfo", "-al", "-q", shp],
        "shapelib": lambda shp, shx: ["shpdump", shp],
        "pyshp": lambda shp, shx: [sys.executable, "-c", PYSHP, shp, shx],
        "the Rust crate": lambda shp, shx: [reads, shp],
    }


def notices(command):
    # a count that is not there may ask for gigabytes: what cannot be had is an error, too
    limited = ["bash", "-c", "ulimit -v 2000000; exec \"$@\"", "limited"] + command
    try:
        done = subprocess.run(limited, stdout=subprocess.PIPE, stderr=subprocess.PIPE, timeout=20)
    except subprocess.TimeoutExpired:
        return True
    said = done.stderr.decode("utf-8", "replace")
    return done.returncode != 0 or said.strip() != ""


def main():
    commands = tools()
    with open(os.path.join(ROOT, "crates", "pairs", "stdout")) as f:
        verdicts = [line.strip().split(": ") for line in f]
    for name, verdict in verdicts:
        shp = os.path.join(DATA, name)
        for tool in commands:
            if verdict.startswith("yes ") and notices(commands[tool](shp, shp[:-1] + "x")):
                sys.exit("%s says something of the good pair %s: the comparison is worth nothing" % (tool, name))
    print("| pair | paircheck | " + " | ".join(commands) + " |")
    print("|---" * (2 + len(commands)) + "|")
    count = dict.fromkeys(commands, 0)
    total = 0
    for name, verdict in verdicts:
        if not verdict.startswith("no "):
            continue
        total += 1
        shp = os.path.join(DATA, name)
        said = {tool: notices(commands[tool](shp, shp[:-1] + "x")) for tool in commands}
        for tool in said:
            count[tool] += said[tool]
        print("| %s | %s | %s |" % (name[:-4], verdict, " | ".join("notices" if said[tool] else "reads" for tool in commands)))
    print("| of %d | %d | %s |" % (total, total, " | ".join(str(count[tool]) for tool in commands)))


main()
