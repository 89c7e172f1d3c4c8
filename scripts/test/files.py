"""What the tests share: the files of a folder, changes of a file, and what is wrong with what was found."""

import os


def bytes_of(path):
    with open(path, "rb") as file:
        return file.read()


def written(folder, files):
    """Writes files into a folder: their paths, and their texts or bytes."""
    for path, content in files.items():
        os.makedirs(os.path.dirname(f"{folder}/{path}"), exist_ok=True)
        with open(f"{folder}/{path}", "wb") as file:
            file.write(content.encode() if isinstance(content, str) else content)


def changed(path, before, after):
    """Puts other lines in the place of those that a file has once. Returns what is wrong with that, or None."""
    text = bytes_of(path).decode()
    written("", {path.removeprefix("/"): text.replace(before, after)})
    return None if text.count(before) == 1 else f"its lines are there {text.count(before)} times"


def other(found, right):
    """What is wrong with what was found, or None."""
    return None if found == right else f"it is {str(found)[:3000]}, and not {str(right)[:1000]}"


def failed(done):
    """What a command that failed printed, or None."""
    return None if done.returncode == 0 else f"status {done.returncode}: {done.stdout[-3000:]}{(done.stderr or '')[-3000:]}"


def printed(done, wanted):
    """What is wrong with a program that ended, or None."""
    return failed(done) or other(done.stdout, wanted)
