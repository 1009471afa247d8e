"""Packs a folder of files: as a tarball, and as a Debian package. The same files and the same time give the same bytes."""
import gzip
import hashlib
import io
import os
import re
import shutil
import subprocess
import tarfile

CONTROL = """Package: listset
Version: {version}
Architecture: amd64
Maintainer: listset contributors
Installed-Size: {size}
Depends: {depends}
Section: devel
Priority: optional
Description: verified interleaving explorer and linearizability checker
 listset looks for an interleaving in which a small concurrent Java class goes
 wrong, and shows each step of it. It also compiles such classes, and finds the
 orders that explain a history.
 .
 The processor must have the instructions of x86-64-v2.
"""


def files_below(folder):
    """Returns the paths of the files below a folder, in order."""
    return sorted(os.path.relpath(f"{at}/{name}", folder) for at, _, names in os.walk(folder) for name in names)


def keep(path, data):
    os.makedirs(os.path.dirname(path), exist_ok=True)
    with open(path, "wb") as file:
        file.write(data)


def kept(path):
    with open(path, "rb") as file:
        return file.read()


def with_folders(path):
    """Returns a path, and each folder that leads to it, as lists of names."""
    return {tuple(path.split("/")[: it + 1]) for it in range(path.count("/") + 1)}


def tarball(folder, name, when):
    """Returns a folder as the bytes of a tarball, whose one folder has that name. No file has an owner, and all have that time."""
    made = io.BytesIO()
    with tarfile.open(fileobj=made, mode="w", format=tarfile.GNU_FORMAT) as tar:
        for names in [(), *sorted(set().union(*map(with_folders, files_below(folder))))]:
            path = "".join(f"/{it}" for it in names)
            one = tar.gettarinfo(f"{folder}{path}", f"{name}{path}")
            one.uid, one.gid, one.uname, one.gname, one.mtime = 0, 0, "", "", when
            tar.addfile(one, None if one.isdir() else io.BytesIO(kept(f"{folder}{path}")))
    return gzip.compress(made.getvalue(), 9, mtime=when)


def depends(program):
    """Returns on which packages a program depends, with the installed scripts: libc6 from the version on that has the versions of the
    program's symbols. That it links another library, of which no package is known, is an error."""
    said = subprocess.run(["objdump", "-p", program], capture_output=True, check=True, encoding="utf-8").stdout
    others = set(re.findall(r"(?m)^ +NEEDED +(\S+)$", said)) - {"libc.so.6"}
    if others:
        raise ValueError(f"the program links {', '.join(sorted(others))}, and no package is known that has it")
    versions = re.findall(r"(?m) GLIBC_([\d.]+)$", said)
    return f"libc6 (>= {max(versions, key=lambda it: [*map(int, it.split('.'))])})"


def control(root, version):
    """Returns the head of a package of the files below a folder, and their sums."""
    files = {it: kept(f"{root}/{it}") for it in files_below(root)}
    size = sum((len(it) + 1023) // 1024 for it in files.values())
    sums = "".join(f"{hashlib.md5(data).hexdigest()}  {name}\n" for name, data in files.items())
    return CONTROL.format(version=version, size=size, depends=depends(f"{root}/usr/lib/listset/listset")), sums


def debian(folder, root, version, when, to):
    """Makes a Debian package of a folder, over another folder, in a file. As Debian asks, the manual page and the changes are compressed,
    the notice is the file `copyright`, and the completions of zsh stand where its zsh looks for those of packages."""
    shutil.copytree(folder, f"{root}/usr")
    told, manual = f"{root}/usr/share/doc/listset", f"{root}/usr/share/man/man1/listset.1"
    for path, packed in ((f"{told}/CHANGELOG.md", f"{told}/changelog.gz"), (manual, f"{manual}.gz")):
        keep(packed, gzip.compress(kept(path), 9, mtime=0))
        os.remove(path)
    os.rename(f"{told}/NOTICE", f"{told}/copyright")
    os.rename(f"{root}/usr/share/zsh/site-functions", f"{root}/usr/share/zsh/vendor-completions")
    for name, text in zip(("control", "md5sums"), control(root, version)):
        keep(f"{root}/DEBIAN/{name}", text.encode())
    for at, _, names in os.walk(root):
        for path in [*(f"{at}/{name}" for name in names), at]:
            os.utime(path, (when, when))
    words = ["dpkg-deb", "--root-owner-group", "-Zxz", "--build", root, to]
    subprocess.run(words, env={**os.environ, "SOURCE_DATE_EPOCH": str(when)}, stdout=subprocess.DEVNULL, check=True)
