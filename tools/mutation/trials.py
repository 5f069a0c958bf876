"""Tries modules: each is compiled to a shared library, which the test program, linked once, loads and tests."""
import os
import signal
import subprocess
import threading

PROGRAM = "siphonbard-tests"
LIBRARY = "libsiphonbard.so"
MEMORY = 4 << 20  # kilobytes that the test program may use
PATIENCE = 20  # seconds of waiting for each second of the processor that it may use


def said(*command, **settings):
    """What a command prints. If it fails, its words and all ends."""
    done = subprocess.run(command, text=True, stdout=subprocess.PIPE, stderr=subprocess.STDOUT, **settings)
    if done.returncode:
        raise SystemExit("%s: exit status %d\n%s" % (" ".join(command), done.returncode, done.stdout))
    return done.stdout


class Trials:
    """All that is made is made in the folder."""

    def __init__(self, repository, folder):
        self.tools = os.path.join(os.path.dirname(said("rt", "doc").strip()), "toolchain", "bin")
        self.repository, self.folder, self.seconds = repository, folder, 600
        self.program = os.path.join(folder, "rust", "release", PROGRAM)

    def tool(self, name, *words, **settings):
        said(os.path.join(self.tools, name), *words, **settings)

    def made(self, name):
        os.makedirs(os.path.join(self.folder, name), exist_ok=True)
        return os.path.join(self.folder, name)

    def compile(self, module, to):
        self.tool("clang", "--target=x86_64-unknown-linux-gnu", "-O1", "-fPIC", "-c", "-x", "ir", "-", "-o", to,
                  input=module)

    def library(self, module, name):
        """The folder of that name, with the module's shared library."""
        folder = self.made(name)
        compiled = os.path.join(folder, "siphonbard.o")
        self.compile(module, compiled)
        self.tool("ld.lld", "-shared", "-soname", LIBRARY, compiled, "-o", os.path.join(folder, LIBRARY))
        return folder

    def link_program(self, library):
        """The archive that is linked has nothing in it, so that the exports are the shared library's."""
        folder = self.made("archive")
        nothing = os.path.join(folder, "nothing.o")
        self.compile("", nothing)
        self.tool("llvm-ar", "rcs", os.path.join(folder, "libsiphonbard.a"), nothing)
        settings = {**os.environ, "SIPHONBARD_LIB_DIR": folder, "CARGO_TARGET_DIR": self.made("rust")}
        said("cargo", "rustc", "--quiet", "--offline", "--release", "--bin", PROGRAM,
             "--manifest-path", os.path.join(self.repository, "tests", "rust", "Cargo.toml"),
             "--", "-C", "link-arg=" + os.path.join(library, LIBRARY), env=settings)

    def noticed(self, library, seed, messages):
        """What the test program says first against that folder's library; nothing if all passes."""
        limits = 'ulimit -c 0; ulimit -v %d; ulimit -t %d; exec "$@"' % (MEMORY, self.seconds)
        command = ["sh", "-c", limits, "sh", self.program, str(seed), str(messages)]
        process = subprocess.Popen(command, env={**os.environ, "LD_LIBRARY_PATH": library}, text=True, errors="replace",
                                   stdout=subprocess.PIPE, stderr=subprocess.DEVNULL, start_new_session=True)
        clock = threading.Timer(PATIENCE * self.seconds, end, [process])
        clock.start()
        failed = next((line for line in process.stdout if line.startswith("FAILED")), None)
        if failed:
            end(process)
        process.wait()
        clock.cancel()
        return failed or outcome(process.returncode)


def end(process):
    """Ends a process and those that it has started."""
    if process.poll() is None:
        os.killpg(process.pid, signal.SIGKILL)


def outcome(code):
    if code == 0:
        return None
    return "exit status %d" % code if code > 0 else signal.Signals(-code).name
