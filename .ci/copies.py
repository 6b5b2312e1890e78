"""Wrong answers tried: a crate checked in a copy of the project where some of its texts are others."""
import os
import queue
import shutil
import subprocess
import time
from concurrent.futures import ThreadPoolExecutor

from source import ROOT


def place(text, value, start=0):
    """Where the value stands; it stands once, or first behind a text that stands once."""
    if value not in text[start:]:
        raise ValueError(f"not in the source: {value}")
    if start == 0 and text.count(value) > 1:
        raise ValueError(f"more than once in the source: {value}")
    return text.index(value, start)


def edited(crate, words):
    """The files of a crate that an edit changes, by their path in it, with their new text. An edit is its lines, each (word, value)."""
    texts, path, start, old = {}, None, 0, None
    for word, value in words:
        if word == "file":
            path, start = value, 0
            if path not in texts:
                with open(f"{ROOT}/crates/{crate}/{path}", encoding="utf-8") as file:
                    texts[path] = file.read()
        elif word == "at":
            start = place(texts[path], value)
        elif word == "old":
            old = value
        elif word == "new":
            at = place(texts[path], old, start)
            texts[path] = texts[path][:at] + value + texts[path][at + len(old) :]
    if old is None:
        raise ValueError("an edit has an old and a new text")
    return texts


def written(folder, texts):
    for path, text in texts.items():
        with open(f"{folder}/{path}", "w", encoding="utf-8") as file:
            file.write(text)


class Copy:
    """A copy of the project's crates in a folder of its own, where one check runs at a time."""

    def __init__(self, folder):
        self.root = f"{folder}/project"
        shutil.copytree(f"{ROOT}/crates", f"{self.root}/crates", ignore=shutil.ignore_patterns("out", "must-fail"))
        shutil.copy(f"{ROOT}/crates.txt", self.root)

    def checked(self, crate, texts):
        """What a check of the crate says where it has these texts, its status and its seconds; then the crate has its own again."""
        folder = f"{self.root}/crates/{crate}"
        before = {path: open(f"{folder}/{path}", encoding="utf-8").read() for path in texts}
        written(folder, texts)
        begun = time.monotonic()
        try:
            done = subprocess.run(["rt", "check", "--jobs", "1"], cwd=folder, capture_output=True, text=True, errors="replace", check=False)
        finally:
            written(folder, before)
        return done.stdout + done.stderr, done.returncode, time.monotonic() - begun


def in_copies(folder, asked):
    """What `Copy.checked` gives of each (crate, texts), in that order: as many checks at a time as there are processors."""
    free = queue.SimpleQueue()
    jobs = max(1, min(len(asked), os.cpu_count() or 1))
    for number in range(jobs):
        free.put(Copy(f"{folder}/{number}"))

    def one(crate, texts):
        copy = free.get()
        try:
            return copy.checked(crate, texts)
        finally:
            free.put(copy)

    with ThreadPoolExecutor(jobs) as pool:
        yield from pool.map(lambda ask: one(*ask), asked)
