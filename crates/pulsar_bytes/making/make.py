#!/usr/bin/python3
"""Writes the input of the program, and the output that it must have, beside src/."""

import importlib
import os
import subprocess
import sys
import tempfile

HERE = os.path.dirname(os.path.abspath(__file__))


def compiled(folder):
    """The messages of PulsarApi.proto, as protoc makes them."""
    subprocess.run(["protoc", f"--proto_path={HERE}", f"--python_out={folder}", "PulsarApi.proto"], check=True)
    sys.path.insert(0, folder)
    return importlib.import_module("PulsarApi_pb2")


def main():
    sys.dont_write_bytecode = True
    with tempfile.TemporaryDirectory() as folder:
        proto = compiled(folder)
    from cases import write_cases
    from sheet import Sheet

    sheet = Sheet(proto)
    write_cases(sheet)
    for name, lines in (("stdin", sheet.input), ("stdout", sheet.output)):
        with open(os.path.join(HERE, "..", name), "w", encoding="utf-8", newline="\n") as out:
            out.write("".join(line + "\n" for line in lines))


main()
