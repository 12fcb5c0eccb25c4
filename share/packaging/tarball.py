"""A tar archive, compressed by gzip, whose bytes depend only on the files in it, their modes and the given time."""
import gzip
import os
import tarfile

from trees import entries


def header(tree, path, name, seconds):
    """Returns what the archive says of a file, a folder or a link, under this name."""
    found = tarfile.TarInfo(name)
    full = os.path.join(tree, path)
    found.mtime = seconds
    if os.path.islink(full):
        found.type, found.linkname, found.mode = tarfile.SYMTYPE, os.readlink(full), 0o777
    elif os.path.isdir(full):
        found.type, found.mode = tarfile.DIRTYPE, 0o755
    else:
        found.size, found.mode = os.path.getsize(full), 0o755 if os.access(full, os.X_OK) else 0o644
    return found


def write(target, tree, top, seconds):
    """Writes the folder `tree` to the file `target`, below the name `top`, with this time of change for each entry."""
    with open(target, "wb") as file, gzip.GzipFile("", "wb", 9, file, mtime=0) as packed:
        with tarfile.open(fileobj=packed, mode="w", format=tarfile.GNU_FORMAT) as tar:
            for path in [".", *entries(tree)]:
                name = top if path == "." else f"{top}/{path}"
                found = header(tree, path, name, seconds)
                if not found.isfile():
                    tar.addfile(found)
                    continue
                with open(os.path.join(tree, path), "rb") as content:
                    tar.addfile(found, content)
