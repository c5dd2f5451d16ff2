"""Bags as maps from paths to contents, and their transfer forms."""
import hashlib
import os

DECLARATION = b"BagIt-Version: 1.0\nTag-File-Character-Encoding: UTF-8\n"


def declaration(version):
    """The text of `bagit.txt`."""
    return DECLARATION.replace(b"1.0", version.encode())


def coded(path):
    """The bytes of a path."""
    return path.encode() if isinstance(path, str) else path


def form(files):
    """The transfer form of a bag."""
    parts = [b"BAGSET 1\n"]
    for path in sorted(files, key=coded):
        content = files[path]
        parts += [b"FILE %d %d\n" % (len(coded(path)), len(content)), coded(path), content, b"\n"]
    return b"".join([*parts, b"END\n"])


def spelled(path, version):
    """A path as a manifest of this version spells it."""
    if version == "1.0":
        path = path.replace(b"%", b"%25")
    return path.replace(b"\r", b"%0D").replace(b"\n", b"%0A")


def manifest(algorithm, files, version="1.0"):
    """The lines that list these files."""
    return b"".join(
        b"%s  %s\n" % (hashlib.new(algorithm, files[path]).hexdigest().encode(), spelled(coded(path), version))
        for path in sorted(files, key=coded)
    )


def manifests(algorithms, files, version="1.0", front=b""):
    """The manifests of these files by each algorithm. `front` is what their names begin with: `tag` of tag
    manifests."""
    return {front + b"manifest-%s.txt" % it.encode(): manifest(it, files, version) for it in algorithms}


def bag(payload, algorithms=("sha256",), tagged=(), version="1.0", more=None):
    """A bag with this payload, whose paths begin with `data/`: its manifests, and tag manifests by the algorithms
    `tagged`. `more` are its other tag files."""
    tags = {b"bagit.txt": declaration(version), **(more or {}), **manifests(algorithms, payload, version)}
    return {**payload, **tags, **manifests(tagged, tags, version, b"tag")}


def form_of(content):
    """The transfer form of a bag with one file, `data/a`."""
    return form(bag({b"data/a": content}))


def lay(folder, files):
    """Writes the files of a bag below a folder, in their order."""
    for path, content in files.items():
        whole = os.path.join(os.fsencode(folder), coded(path))
        os.makedirs(os.path.dirname(whole), exist_ok=True)
        with open(whole, "wb") as file:
            file.write(content)


def files_below(folder):
    """The files below a folder, as `lay` takes them."""
    files, folder = {}, os.fsencode(folder)
    for above, _, names in os.walk(folder):
        for name in names:
            whole = os.path.join(above, name)
            with open(whole, "rb") as file:
                files[os.path.relpath(whole, folder)] = file.read()
    return files
