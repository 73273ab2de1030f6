"""Two kernels of Debian and an emulator, fetched as packages into a folder and not installed, and how to boot them."""
import glob
import os
import re
import shutil
import subprocess
import sys

sys.path.insert(0, os.path.dirname(os.path.dirname(os.path.realpath(__file__))))
import common

HERE = os.path.dirname(os.path.realpath(__file__))

VERSIONS = ("6.1", "6.12")

# As the kernel boots: quiet where a workqueue would be looked at or served of itself, and with a log that a suspend
# does not stop. CPU-intensive runs are only those whose queue says so. It does not try whether the timer interrupts in
# time, which it does not in an emulator that is kept waiting: the kernel would panic as it boots.
OPTIONS = ("console=ttyS0 no_timer_check no_console_suspend oops=panic panic=-1 preempt=none mitigations=off "
           "nowatchdog workqueue.watchdog_thresh=0 workqueue.cpu_intensive_thresh_us=0 "
           "rcupdate.rcu_cpu_stall_suppress=1")

# How long a machine may run, in seconds.
LONGEST = 900


class Failed(Exception):
    """A step that went wrong, in one line."""


def ran(words, log=None, **how):
    """The output of a command, or what it said last as a failure."""
    how = {"check": False, "text": True, "stdin": subprocess.DEVNULL, "stdout": subprocess.PIPE,
           "stderr": subprocess.PIPE, "env": {**os.environ, "LC_ALL": "C"}, **how}
    try:
        done = subprocess.run(words, **how)
    except FileNotFoundError as error:
        raise Failed(f"there is no {words[0]} on the PATH") from error
    if log:
        with open(log, "w", encoding="utf-8") as it:
            it.write(done.stdout + done.stderr)
    if done.returncode:
        said = (done.stderr.strip() or done.stdout.strip() or f"status {done.returncode}").splitlines()[-1]
        raise Failed(f"{' '.join(words[:4])}: {said}{f' (see {log})' if log else ''}")
    return done.stdout


def default_cache():
    return f"{os.environ.get('XDG_CACHE_HOME') or os.path.expanduser('~/.cache')}/cmwq-linux"


class Cache:
    """The folder with what was fetched, and what is made of it."""

    def __init__(self, folder):
        self.at = os.path.abspath(folder)
        for it in ("packages", "unpacked", "root", "made", "lists/partial", "apt/archives/partial"):
            os.makedirs(f"{self.at}/{it}", exist_ok=True)
        # lists of packages of its own, by the sources of this system
        self.options = ["-o", f"Dir::State::Lists={self.at}/lists", "-o", f"Dir::Cache={self.at}/apt"]
        self.is_updated = False

    def apt(self, command, *words, **how):
        """The output of apt-get or apt-cache. The lists are brought up to date before."""
        if not self.is_updated:
            self.is_updated = True
            print("fetching the lists of packages", flush=True)
            ran(["apt-get", *self.options, "-q", "update"])
            if not glob.glob(f"{self.at}/lists/*_Packages*"):
                raise Failed("no list of packages could be fetched; it needs the network, and sources of packages")
        return ran([command, *self.options, *words], **how)

    def fetch(self, *packages):
        """Downloads packages, and unpacks those that are not there yet."""
        missing = [it for it in packages if not os.path.exists(f"{self.at}/unpacked/{it}")]
        if not missing:
            return
        print(f"fetching {' '.join(missing[:3])}{f' and {len(missing) - 3} more' if missing[3:] else ''}", flush=True)
        self.apt("apt-get", "download", *missing, cwd=f"{self.at}/packages")
        for it in missing:
            for file in glob.glob(f"{self.at}/packages/{it.split(':')[0]}_*.deb"):
                ran(["dpkg-deb", "-x", file, f"{self.at}/root"])
                os.remove(file)
            with open(f"{self.at}/unpacked/{it}", "w", encoding="utf-8"):
                pass

    def emulator(self):
        """The words that begin a command of qemu: that of this machine, or a fetched one."""
        own = shutil.which("qemu-system-x86_64")
        if own:
            return [own], {}
        root = f"{self.at}/root/usr"
        if not os.path.exists(f"{self.at}/unpacked/qemu"):
            simulated = self.apt("apt-get", "install", "-s", "--no-install-recommends", "qemu-system-x86")
            self.fetch(*re.findall(r"^Inst (\S+)", simulated, re.MULTILINE))
            with open(f"{self.at}/unpacked/qemu", "w", encoding="utf-8"):
                pass
        words = [f"{root}/bin/qemu-system-x86_64", "-L", f"{root}/share/qemu", "-L", f"{root}/share/seabios"]
        libraries = f"{root}/lib/x86_64-linux-gnu:{self.at}/root/lib/x86_64-linux-gnu"
        return words, {"LD_LIBRARY_PATH": libraries}

    def release(self, version):
        """The newest release of a kernel: what is unpacked already, or else the newest that the lists name."""
        pattern = re.compile(rf"linux-headers-({re.escape(version)}\.\d+[^-]*(?:-\d+)?-cloud-amd64)$")
        for names in (lambda: os.listdir(f"{self.at}/unpacked"), self.headers):
            found = sorted((it[1] for it in map(pattern.match, names()) if it), key=by_numbers)
            if found:
                return found[-1]
        raise Failed(f"the lists of packages name no Linux {version}; those of Debian 12 do")

    def headers(self):
        return self.apt("apt-cache", "pkgnames", "linux-headers-").split()

    def kernel(self, version):
        """A kernel with its headers: its release."""
        release = self.release(version)
        common_part = release[:-len("-cloud-amd64")]
        kbuild = self.first(f"linux-kbuild-{common_part}", f"linux-kbuild-{version}")
        image = self.first(f"linux-image-{release}", f"linux-image-{release}-unsigned")
        self.fetch(image, f"linux-headers-{release}", f"linux-headers-{common_part}-common", kbuild)
        return release

    def first(self, *packages):
        """The first of these packages that is unpacked, or else that the lists have."""
        for it in packages:
            if os.path.exists(f"{self.at}/unpacked/{it}"):
                return it
        for it in packages:
            if re.search(r"Candidate: [^(]", self.apt("apt-cache", "policy", it)):
                return it
        raise Failed(f"the lists of packages have no {' and no '.join(packages)}")

    def module(self, release, name):
        """Builds a module for a kernel: its path."""
        folder = f"{self.at}/made/{release}-{name}"
        os.makedirs(folder, exist_ok=True)
        shutil.copy(f"{HERE}/{name}.c", folder)
        with open(f"{folder}/Makefile", "w", encoding="utf-8") as it:
            it.write(f"obj-m := {name}.o\n")
        headers = f"{self.at}/root/usr/src/linux-headers-{release}"
        # the headers of Debian name their common part by the path that it has when it is installed
        with open(f"{headers}/Makefile", encoding="utf-8") as it:
            text = it.read()
        with open(f"{headers}/Makefile", "w", encoding="utf-8") as it:
            it.write(re.sub(r"^include \S*/usr/src/", f"include {self.at}/root/usr/src/", text, flags=re.MULTILINE))
        words = ["nice", "make", "-s", "-C", headers, f"M={folder}", "CONFIG_DEBUG_INFO_BTF_MODULES=", "modules"]
        ran(words, log=f"{folder}/make.log")
        return f"{folder}/{name}.ko"

    def boot(self, release, script, name="player", threads="single"):
        """Boots a kernel in which a module plays a script: the lines of its log, also if it did not come to its end.
        Its CPUs take turns, or each has a thread (`multi`), which is faster and less alike from time to time."""
        words, extra = self.emulator()
        init, archive, log = (f"{self.at}/made/{release}.{it}" for it in ("init", "cpio", "log"))
        ran(["cc", "-static", "-O1", "-Wall", "-Wextra", "-o", init, f"{HERE}/init.c"])
        with open(archive, "wb") as it:
            it.write(b"".join(parts_of_archive({"init": init, "module.ko": self.module(release, name)}, script)))
        kernel = f"{self.at}/root/boot/vmlinuz-{release}"
        machine = ["-nodefaults", "-display", "none", "-no-reboot", "-m", "1024", "-smp", "4", "-accel",
                   f"tcg,thread={threads}", "-kernel", kernel, "-initrd", archive, "-serial", f"file:{log}", "-append",
                   OPTIONS]
        try:
            ran(["nice", "-n", "10", *words, *machine], env={**os.environ, **extra}, timeout=LONGEST)
        except subprocess.TimeoutExpired:
            print(f"Linux {release} has not ended after {LONGEST} s", flush=True)
        with open(log, encoding="utf-8", errors="replace") as it:
            return it.read().splitlines()


def by_numbers(name):
    return [int(it) for it in re.findall(r"\d+", name)]


def parts_of_archive(files, script):
    """The first file system of a kernel (cpio, newc): programs by their names, and the script."""
    contents = [("dev", 0o040755, b"", 0, 0), ("dev/console", 0o020600, b"", 5, 1)]
    for name, path in files.items():
        with open(path, "rb") as it:
            contents.append((name, 0o100755, it.read(), 0, 0))
    contents += [("script", 0o100644, script.encode(), 0, 0), ("TRAILER!!!", 0, b"", 0, 0)]
    for number, (name, mode, data, major, minor) in enumerate(contents, 1):
        named = name.encode() + b"\0"
        fields = (number, mode, 0, 0, 1, 0, len(data), 0, 0, major, minor, len(named), 0)
        head = b"070701" + b"".join(b"%08x" % it for it in fields) + named
        yield head + b"\0" * (-len(head) % 4) + data + b"\0" * (-len(data) % 4)
