"""Small Debian systems in folders, made by mmdebstrap, in which a release is tried without the toolchain."""
import os
import subprocess

from checkout import call

# (a mirror may be older than a Release file is valid, and nothing here needs a new one)
APT = 'Acquire::Check-Valid-Until "false"'
# (a system that is lost in a crash is made again)
DPKG = "force-unsafe-io"
MIRROR = "deb http://deb.debian.org/debian {suite} main"


class Root:
    """A Debian system in a folder, which runs commands by chroot. It is unpacked from an archive in the folder `systems`, which is
    made if it is not there. Without such a folder it is made each time."""

    def __init__(self, folder, suite, words, systems):
        self.folder = folder
        made = ["mmdebstrap", "--quiet", f"--aptopt={APT}", f"--dpkgopt={DPKG}", *words, suite]
        if not systems:
            call([*made, folder, MIRROR.format(suite=suite)])
            return
        archive = os.path.join(systems, f"{os.path.basename(folder)}.tar")
        os.makedirs(systems, exist_ok=True)
        if not os.path.exists(archive):
            call([*made, f"{archive}.new.tar", MIRROR.format(suite=suite)])
            os.rename(f"{archive}.new.tar", archive)
        os.makedirs(folder)
        call(["tar", "xf", archive, "--numeric-owner", "-C", folder])

    def path(self, name):
        return os.path.join(self.folder, name.lstrip("/"))

    def run(self, words, at="/"):
        """Runs a command of the system in one of its folders. Returns the status, and what is printed on both streams."""

        def enter():
            os.chroot(self.folder)
            os.chdir(at)

        how = {"stdin": subprocess.DEVNULL, "stdout": subprocess.PIPE, "stderr": subprocess.STDOUT, "text": True, "errors": "replace"}
        settings = {"PATH": "/usr/sbin:/usr/bin:/sbin:/bin", "LC_ALL": "C.UTF-8", "DEBIAN_FRONTEND": "noninteractive"}
        done = subprocess.run(words, preexec_fn=enter, env=settings, **how)
        return done.returncode, done.stdout

    def with_proc(self, words):
        """Returns the words that run a command of the system with /proc, which is mounted for this command only."""
        script = 'mount -t proc none "$0/proc" && exec chroot "$0" "$@"'
        return ["unshare", "--mount", "sh", "-c", script, self.folder, *words]


def with_glibc(folder, suite, systems):
    """Returns a system that has glibc and nothing else: no shell and no command."""
    root = Root(folder, suite, ["--variant=extract", "--include=libc6"], systems)
    for name in ("lib", "lib64"):
        # (the package of these links has much more in it)
        if not os.path.lexists(root.path(name)):
            os.symlink(f"usr/{name}", root.path(name))
    return root


def with_apt(folder, suite, systems):
    """Returns a minimal system that can install packages, with Python for byzlab-serve."""
    return Root(folder, suite, ["--variant=apt", "--include=python3"], systems)
