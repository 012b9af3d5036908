"""Folders in memory, and archives of them: the same files always give the same bytes, with no owners or paths of the maker, and one time, which
the caller names (a release's day)."""
import base64
import gzip
import hashlib
import io
import lzma
import os
import tarfile
import zipfile
from collections import namedtuple

# A file: what it has, and whether it is run; or where it leads, for a link.
File = namedtuple("File", "data runs link", defaults=(False, None))


def file_of(path, runs=None):
    with open(path, "rb") as file:
        return File(file.read(), os.access(path, os.X_OK) if runs is None else runs)


def below(tree, prefix):
    """A tree with all its names below a folder."""
    return {os.path.join(prefix, name): file for name, file in tree.items()}


def folders_of(tree):
    """The folders above the files, each before those in it."""
    found = set()
    for name in tree:
        while os.path.dirname(name):
            name = os.path.dirname(name)
            found.add(name)
    return sorted(found)


def tar_of(tree, prefix, time):
    """A tar of a tree. Each name gets the prefix, and each file the time, in seconds since 1970."""
    written = io.BytesIO()
    with tarfile.open(fileobj=written, mode="w", format=tarfile.GNU_FORMAT) as tar:
        for name in sorted([*folders_of(tree), *tree] + ([""] if prefix == "./" else [])):
            entry, file = tarfile.TarInfo(prefix + name), tree.get(name)
            entry.uname = entry.gname = "root"
            entry.mtime = time
            entry.mode = 0o755 if file is None or file.runs or file.link else 0o644
            if file is None:
                entry.type = tarfile.DIRTYPE
            elif file.link:
                entry.type, entry.linkname, entry.mode = tarfile.SYMTYPE, file.link, 0o777
            else:
                entry.size = len(file.data)
            tar.addfile(entry, io.BytesIO(file.data) if file and not file.link else None)
    return written.getvalue()


def xz_of(data):
    return lzma.compress(data, preset=6)


def gz_of(data):
    return gzip.compress(data, 9, mtime=0)


def ar_of(members):
    """An archive of the kind of .deb files."""
    written = b"!<arch>\n"
    for name, data in members:
        written += ("%-16s%-12d%-6d%-6d%-8s%-10d`\n" % (name, 0, 0, 0, "100644", len(data))).encode("ascii")
        written += data + b"\n" * (len(data) % 2)
    return written


def zip_of(tree):
    written = io.BytesIO()
    with zipfile.ZipFile(written, "w", zipfile.ZIP_DEFLATED) as archive:
        for name in sorted(tree):
            entry = zipfile.ZipInfo(name)
            entry.compress_type, entry.create_system = zipfile.ZIP_DEFLATED, 3
            entry.external_attr = (0o100755 if tree[name].runs else 0o100644) << 16
            archive.writestr(entry, tree[name].data)
    return written.getvalue()


def record_of(tree, name):
    """The list of a wheel's files with their checksums."""
    rows = []
    for path in sorted(tree):
        digest = base64.urlsafe_b64encode(hashlib.sha256(tree[path].data).digest()).rstrip(b"=").decode("ascii")
        rows.append("%s,sha256=%s,%d\n" % (path, digest, len(tree[path].data)))
    return "".join(rows + ["%s,,\n" % name]).encode("utf-8")


def put(tree, folder):
    """Writes a tree into a folder of the disk. A file that is there is replaced whole."""
    for name, file in sorted(tree.items()):
        path = os.path.join(folder, name)
        os.makedirs(os.path.dirname(path), exist_ok=True)
        if os.path.lexists(path):
            os.remove(path)
        if file.link:
            os.symlink(file.link, path)
            continue
        with open(path, "wb") as out:
            out.write(file.data)
        os.chmod(path, 0o755 if file.runs else 0o644)
