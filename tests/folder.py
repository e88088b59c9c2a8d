"""Writing a folder of made files, and comparing two folders."""

import os


def write_files(folder, files):
    """Writes files given as {path under the folder, with slashes: bytes}."""
    for name, data in files.items():
        path = os.path.join(folder, *name.split("/"))
        os.makedirs(os.path.dirname(path), exist_ok=True)
        with open(path, "wb") as out:
            out.write(data)


def files_under(folder):
    """All files under a folder as {path under it, with slashes: bytes}."""
    files = {}
    for place, _, names in os.walk(folder):
        for name in names:
            path = os.path.join(place, name)
            with open(path, "rb") as source:
                files[os.path.relpath(path, folder).replace(os.sep, "/")] = source.read()
    return files


def differences(kept, made):
    """One line for each file that is missing, extra or different."""
    lines = []
    for name in sorted(set(kept) | set(made)):
        if name not in kept:
            lines.append("missing: " + name)
        elif name not in made:
            lines.append("extra: " + name)
        elif kept[name] != made[name]:
            lines.append("different: " + name)
    return lines
