"""What the tests of commands share: running one, and groups of checks that are counted."""
import importlib.machinery
import importlib.util
import os
import subprocess
import sys
import tempfile
import traceback

ROOT = os.path.abspath(os.path.join(os.path.dirname(os.path.abspath(__file__)), ".."))
CHECK = os.path.join(ROOT, "check")
TEXT = os.path.join(ROOT, "tools", "text")


class Said:
    """What a command said, and its status."""

    def __init__(self, status, out, err):
        self.status, self.out, self.err = status, out, err.decode("utf-8", "replace")
        self.traceback = "Traceback" in self.err or b"Traceback" in out

    def lines(self):
        return self.out.decode("utf-8").splitlines()


def started(words, data=b"", cwd=None, stdout=subprocess.PIPE, env=None):
    """Starts a command as a shell would."""
    done = subprocess.run(words, input=data, stdout=stdout, stderr=subprocess.PIPE, cwd=cwd, env=env, timeout=60)
    return Said(done.returncode, done.stdout or b"", done.stderr)


def command(script):
    """A function that runs a script of this repository in a child of this process: many calls, and Python starts once.

    The child has the standard streams and the status of the command; only the start of Python itself is left out.
    """
    sys.path.insert(0, os.path.join(ROOT, "tools"))
    name = os.path.basename(script)
    loader = importlib.machinery.SourceFileLoader(name + "_command", script)
    module = importlib.util.module_from_spec(importlib.util.spec_from_loader(loader.name, loader))
    loader.exec_module(module)

    def call(*words, data=b""):
        with tempfile.TemporaryFile() as given, tempfile.TemporaryFile() as out, tempfile.TemporaryFile() as err:
            given.write(data)
            given.seek(0)
            sys.stdout.flush()
            child = os.fork()
            if child == 0:
                in_child(module.run, name, module.main, words, (given, out, err))
            status = os.WEXITSTATUS(os.waitpid(child, 0)[1])
            out.seek(0)
            err.seek(0)
            return Said(status, out.read(), err.read())

    return call


def in_child(run, name, main, words, files):
    try:
        for fd, file in enumerate(files):
            os.dup2(file.fileno(), fd)
        sys.stdin, sys.stdout, sys.stderr = open(0), open(1, "w"), open(2, "w")
        sys.argv = [name] + list(words)
        run(name, main)
    except BaseException:
        traceback.print_exc()
        sys.stderr.flush()
    finally:
        os._exit(1)


def write(folder, name, data):
    path = os.path.join(folder, name)
    with open(path, "wb") as file:
        file.write(bytes(data))
    return path


def read(path):
    with open(path, "rb") as file:
        return file.read()


def run_groups(script, groups):
    """Each group gets a folder of its own, and yields what it saw: whether it is right, and what it is. None may be empty."""
    failed = 0
    for name, group in groups:
        tried, wrong = 0, 0
        with tempfile.TemporaryDirectory() as folder:
            for right, what in group(folder):
                tried += 1
                if not right:
                    wrong += 1
                    print("%s: FAILED: %s: %s" % (script, name, what))
        print("%s: %s: %d tried, %d failed" % (script, name, tried, wrong))
        failed += wrong + (tried == 0)
    sys.exit(1 if failed else 0)
