#!/usr/bin/env python3
"""An index of text on many machines: shards by ranges of ids, which the workers of Dask write and read.

    index.py build ADDRESS FOLDER [--first ID] FILE ..     writes the index: a shard for each file, a document for each line
    index.py ask ADDRESS FOLDER [--ids] [--batch N]        reads queries, one on each line, and prints how many documents each has, or their ids

ADDRESS is that of the scheduler. The workers need this folder in PYTHONPATH, and have to see all files under the same names. The status is 0,
or 2 if something is wrong, which standard error then says. For a line that is no query `ask` prints `?`, and answers the others.
"""
import argparse
import contextlib
import glob
import itertools
import json
import os
import re
import shutil
import sys
import uuid
import zlib

import numpy as np
from distributed import Client, KilledWorker, progress, wait

import queries
import shards
from shards import ShardError

NAME = "index.json"
GENERATION = re.compile(r"[0-9a-f]{32}")


def shown(tasks):
    """Shows a bar until the tasks are done, if standard error is a terminal."""
    if sys.stderr.isatty():
        with contextlib.redirect_stdout(sys.stderr):
            progress(tasks, notebook=False)
    return tasks


def gathered(client, files):
    """What the tasks return. `files` has a task for each file. An error that a task raised is raised here."""
    try:
        return client.gather(list(files.values()))
    except KilledWorker as why:
        file = next(file for file, task in files.items() if task.key == why.task)
        raise ShardError(file, None, "all workers died that got its task") from None


def build(client, files, folder, first=0):
    """Writes an index. The ids count from `first` on, through the files in their order.

    The index is there when all its shards are: if a build fails, an index that was there before stays as it was. The shards of a
    build are in a folder of their own, its generation."""
    if not files or not 0 <= first < 2**63:
        raise ValueError("an index needs a file, and a first id from 0 to 2**63 - 1")
    generation = uuid.uuid4().hex
    names = [f"{generation}/{number:05}.shard" for number in range(len(files))]
    paths = [f"{os.path.abspath(folder)}/{it}" for it in names]
    os.makedirs(f"{folder}/{generation}")
    tasks = [
        client.submit(shards.write_lines, os.path.abspath(it), path, key=f"{os.path.basename(path)}-{generation}")
        for it, path in zip(files, paths)
    ]
    try:
        done = gathered(client, dict(zip(paths, shown(tasks))))
        firsts = itertools.accumulate((it["documents"] for it in done), initial=first)
        before = switched(folder, [{"file": name, "first": id, **it} for name, id, it in zip(names, firsts, done)])
    except BaseException:
        client.cancel(tasks)
        shutil.rmtree(f"{folder}/{generation}", ignore_errors=True)
        raise
    for part in glob.glob(f"{glob.escape(str(folder))}/{generation}/*.part"):  # of workers that died
        os.remove(part)
    for it in before:
        shutil.rmtree(f"{folder}/{it}", ignore_errors=True)  # what a worker has mapped can still be read there
    return Index(client, folder)


def switched(folder, table):
    """Makes these the shards of the index. Returns the generations that it had before."""
    try:
        before = {os.path.dirname(it["file"]) for it in read(f"{folder}/{NAME}")}
    except (FileNotFoundError, ShardError):
        before = set()
    with shards.replacing(f"{folder}/{NAME}") as file:
        file.write(json.dumps({"shards": table, "crc": crc_of(table)}, indent=1).encode())
    return {it for it in before if GENERATION.fullmatch(it)}


def crc_of(table):
    return zlib.crc32(json.dumps(table).encode())


def read(path):
    """The shards of an index, by its file."""
    try:
        with open(path, encoding="utf-8") as file:
            found = json.load(file)
        if crc_of(found["shards"]) == found["crc"]:
            return found["shards"]
    except (ValueError, KeyError, TypeError):
        pass
    raise ShardError(path, None, "it is damaged")


class Index:
    """An index that was built. `shards` has for each shard its file, the id of its first document, and its sizes."""

    def __init__(self, client, folder):
        self.client, self.folder = client, os.path.abspath(folder)
        self.shards = read(f"{self.folder}/{NAME}")

    def submit(self, texts, counted=False):
        """Starts a batch of queries: a task for each shard, by its file.

        Any worker may do a task: if one dies, Dask gives its tasks to others. The key names the shard, as Dask's own errors name keys."""
        asked = [queries.parsed(it) for it in texts]
        paths = {f"{self.folder}/{it['file']}": it for it in self.shards}
        return {
            path: self.client.submit(shards.answers, path, it["crc"], asked, counted, key=f"{os.path.basename(path)}-{uuid.uuid4()}")
            for path, it in paths.items()
        }

    def join(self, tasks, counted=False, patience=None):
        """For each query of a batch the count of its documents, or their ids in increasing order. ShardError if a shard does not answer.

        It waits as long as there is no worker, or for these seconds at most; then TimeoutError."""
        try:
            with self.client.as_current():
                wait(list(tasks.values()), timeout=patience)
        except TimeoutError:
            late = [os.path.basename(path) for path, task in tasks.items() if task.status == "pending"]
            raise TimeoutError(f"no answer within {patience} seconds from {', '.join(late)}") from None
        parts = gathered(self.client, tasks)
        return [sum(it) if counted else self.ids(it) for it in zip(*parts)]

    def ids(self, sets):
        """The ids of what each shard answered to one query."""
        out, end = np.empty(sum(map(len, sets)), np.uint64), 0
        for shard, found in zip(self.shards, sets):
            part = found.unpack(out[end:])
            part += np.uint64(shard["first"])
            end += len(part)
        return out

    def ask(self, texts, counted=False, patience=None):
        """Answers a batch of queries, as `submit` and then `join` do."""
        return self.join(self.submit(texts, counted), counted, patience)


def answered(index, texts, batch, ids, refuse):
    """The lines that answer queries, `?` for one that is none, after a call of `refuse` with its number and what is wrong. All batches are begun
    before the first is printed."""
    wrong = {number: why for number, text in enumerate(texts, 1) if (why := fault_of(text))}
    for number, why in wrong.items():
        refuse(number, why)
    good = [text for number, text in enumerate(texts, 1) if number not in wrong]
    begun = [index.submit(good[at : at + batch], not ids) for at in range(0, len(good), batch)]
    shown([task for tasks in begun for task in tasks.values()])
    found = (it for _ in range(len(begun)) for it in index.join(begun.pop(0), not ids))
    for number in range(1, len(texts) + 1):
        if number in wrong:
            yield "?"
        else:
            yield " ".join(map(str, next(found).tolist())) if ids else str(next(found))


def fault_of(text):
    """What is wrong with a query, or None."""
    try:
        queries.parsed(text)
    except ValueError as why:
        return str(why)
    return None


def words_given():
    parser = argparse.ArgumentParser(description=__doc__.split("\n")[0])
    commands = parser.add_subparsers(dest="command", required=True)
    building, asking = commands.add_parser("build"), commands.add_parser("ask")
    for command in building, asking:
        command.add_argument("address", help="of the scheduler")
        command.add_argument("folder", help="of the index")
    building.add_argument("--first", type=int, default=0, help="the id of the first document")
    building.add_argument("files", nargs="+", help="text in UTF-8, a document on each line")
    asking.add_argument("--ids", action="store_true", help="print ids instead of counts")
    asking.add_argument("--batch", type=int, default=1000, help="how many queries a task answers")
    return parser.parse_args()


def main():
    given, wrong = words_given(), []

    def refuse(number, why):
        wrong.append(number)
        print(f"index.py: line {number}: {why}", file=sys.stderr)

    try:
        with Client(given.address, timeout=30) as client:
            if given.command == "build":
                sizes = build(client, given.files, given.folder, given.first).shards
                total = {it: sum(size[it] for size in sizes) for it in ("documents", "postings", "bytes")}
                print(f"{len(sizes)} shards, " + ", ".join(f"{count} {it}" for it, count in total.items()))
            else:
                texts = sys.stdin.read().split("\n")
                for line in answered(Index(client, given.folder), texts[: -1 if texts[-1] == "" else None], given.batch, given.ids, refuse):
                    print(line)
    except (OSError, ValueError, ShardError) as why:
        print(f"index.py: {why}", file=sys.stderr)
        return 2
    return 2 if wrong else 0


if __name__ == "__main__":
    sys.exit(main())
