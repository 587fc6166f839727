#!/usr/bin/env python3
"""Runs the commands of a transcript again, and prints the transcript anew.

    transcript.py PROGRAM LETTERS < TRANSCRIPT

Of the transcript only the lines that begin with `$ ` and the lines between
that begin with `# ` are read. Each command is run by a shell in a folder that
is empty but for `letters`, a copy of the folder LETTERS, with `concord` as the
program; the folder stays from one command to the next. Behind a command stands
what it prints, standard error too, and its exit status where that is not 0.
"""

import os
import shutil
import subprocess
import sys
import tempfile


# What a command prints, and its exit status.
def run(command, folder, environment):
    done = subprocess.run(["bash", "-c", command], cwd=folder, env=environment, stdin=subprocess.DEVNULL,
                          stdout=subprocess.PIPE, stderr=subprocess.STDOUT)
    return done.stdout, done.returncode


# Prints the transcript of the commands.
def transcribe(lines, folder, environment, out):
    for line in lines:
        if line.startswith(b"# "):
            out.write(line)
        if line.startswith(b"$ "):
            printed, status = run(line[2:].decode(), folder, environment)
            out.write(line + printed)
            if status != 0:
                out.write(b"[status %d]\n" % status)
            out.write(b"\n")


# Prints the transcript that is given.
def main():
    program, letters = map(os.path.abspath, sys.argv[1:])
    lines = sys.stdin.buffer.readlines()
    with tempfile.TemporaryDirectory() as place:
        folder, tools = os.path.join(place, "work"), os.path.join(place, "tools")
        os.makedirs(tools)
        os.symlink(program, os.path.join(tools, "concord"))
        os.makedirs(folder)
        shutil.copytree(letters, os.path.join(folder, "letters"))
        environment = dict(os.environ, PATH=tools + os.pathsep + os.environ["PATH"])
        transcribe(lines, folder, environment, sys.stdout.buffer)


if __name__ == "__main__":
    main()
