"""The Debian package of a release, made by dpkg-deb."""
import gzip
import hashlib
import os
import time

import library
from checkout import Failure, call, version
from contents import DEBIAN, binaries, room
from provenance import needed_glibc, needed_libraries
from trees import entries, leaves, plain_files

TOOLS = {"dpkg-deb": "dpkg"}
# The package of each library that a program may load.
PACKAGES = {"libc.so.6": "libc6 (>= {glibc})", "libm.so.6": "libc6 (>= {glibc})", "libgcc_s.so.1": "libgcc-s1"}
MAINTAINER = "The owner of byzlab <byzlab@packages.invalid>"
CONTROL = """Package: byzlab
Version: {version}
Architecture: amd64
Maintainer: {maintainer}
Installed-Size: {kilobytes}
Depends: {depends}
Recommends: python3, python3-waitress
Section: science
Priority: optional
Description: Byzantine generals laboratory whose program is proved
 byzlab plays the Byzantine generals problem of Lamport, Shostak and Pease.
 Loyal generals follow the authors' algorithms, with oral or with signed
 messages, and each traitor is a program in BPF bytecode, which a proved
 verifier checks before it runs. byzlab-survey plays many campaigns and counts
 how they end, and byzlab-serve, which needs Python, serves the laboratory to
 browsers. The library byzlab_sandbox gives the verifier and the machine to
 programs in C.
"""
COPYRIGHT = """byzlab has no licence yet: none has been granted, and the owner decides.

Copyright (C) {year} the owner of the repository in which byzlab is developed.
All rights are reserved. To copy this package you need the owner's permission.
"""
CHANGELOG = """byzlab ({version}) unstable; urgency=medium

  * CHANGELOG.md in this folder says what is new.

 -- {maintainer}  {day}
"""
# One package has all of a release, so that one command installs it. Debian would have two more, for the library and for those who
# compile with it. So two versions of the library cannot be installed side by side (docs/RELEASES.md).
OVERRIDES = """# byzlab is one package, with the library and what one compiles with it
byzlab: link-to-shared-library-in-wrong-package
byzlab: package-name-doesnt-match-sonames libbyzlab1
"""
# A server for WSGI that root has run may have left bytecode.
BEFORE_REMOVAL = """#!/bin/sh
set -e
rm -rf /usr/share/byzlab/serve/__pycache__
"""
PAGES = "usr/share/doc/byzlab"


def name():
    return f"byzlab_{version()}_amd64.deb"


def packed(path):
    """Replaces a file by one with the same content that gzip has compressed, as Debian wants pages and changelogs."""
    with open(path, "rb") as file:
        content = gzip.compress(file.read(), 9, mtime=0)
    with open(f"{path}.gz", "wb") as file:
        file.write(content)
    os.remove(path)


def write(tree, path, text):
    with open(room(tree, path), "w", encoding="utf-8") as file:
        file.write(text)


def pack_pages(tree):
    """Compresses the man pages. A page that is a link then leads to the compressed one."""
    for path in leaves(os.path.join(tree, "usr", "share", "man")):
        full = os.path.join(tree, "usr", "share", "man", path)
        if os.path.islink(full):
            os.symlink(f"{os.readlink(full)}.gz", f"{full}.gz")
            os.remove(full)
        else:
            packed(full)


def depends(paths):
    """Returns the packages that these files need."""
    glibc, found = needed_glibc(paths), []
    for loaded in needed_libraries(paths):
        if loaded not in PACKAGES:
            raise Failure(f"no Debian package is known for the library {loaded}, which a program loads")
        found.append(PACKAGES[loaded].format(glibc=glibc))
    return ", ".join(sorted(set(found)))


def describe(tree, seconds):
    """Writes what dpkg wants to know: the folder DEBIAN, the copyright and the changelog."""
    day = time.strftime("%a, %d %b %Y %H:%M:%S +0000", time.gmtime(seconds))
    write(tree, f"{PAGES}/copyright", COPYRIGHT.format(year=time.gmtime(seconds).tm_year))
    write(tree, f"{PAGES}/changelog", CHANGELOG.format(version=version(), maintainer=MAINTAINER, day=day))
    packed(os.path.join(tree, PAGES, "changelog"))
    write(tree, "usr/share/lintian/overrides/byzlab", OVERRIDES)
    kilobytes, sums = 0, ""
    for path in plain_files(tree):
        with open(os.path.join(tree, path), "rb") as file:
            content = file.read()
        kilobytes += -(-len(content) // 1024)
        sums += f"{hashlib.md5(content).hexdigest()}  {path}\n"
    needed = depends([os.path.join(tree, "usr", path) for path in binaries(DEBIAN)])
    said = {"version": version(), "maintainer": MAINTAINER, "kilobytes": kilobytes, "depends": needed}
    write(tree, "DEBIAN/control", CONTROL.format(**said))
    write(tree, "DEBIAN/md5sums", sums)
    write(tree, "DEBIAN/prerm", BEFORE_REMOVAL)
    write(tree, "DEBIAN/triggers", "activate-noawait ldconfig\n")
    write(tree, "DEBIAN/shlibs", f"libbyzlab {library.soname().rsplit('.', 1)[1]} byzlab (>= {version()})\n")


def build(tree, target, seconds):
    """Makes the package of a folder whose usr/ has the files. Each has this time of change."""
    pack_pages(tree)
    describe(tree, seconds)
    for path in [".", *entries(tree)]:
        full = os.path.join(tree, path)
        if not os.path.islink(full):
            is_run = path.startswith("usr/bin/") or path == "DEBIAN/prerm"
            os.chmod(full, 0o755 if os.path.isdir(full) or is_run else 0o644)
        os.utime(full, (seconds, seconds), follow_symlinks=False)
    # (with one thread, since with several the bytes may be others)
    settings = {**os.environ, "SOURCE_DATE_EPOCH": str(seconds), "DPKG_DEB_THREADS_MAX": "1", "TMPDIR": os.path.dirname(target)}
    call(["dpkg-deb", "--root-owner-group", "-Zxz", "--build", tree, target], env=settings)
