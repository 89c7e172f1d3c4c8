"""The index over real processes, against plain sets: a scheduler and three workers, which are stopped and killed; shards that are damaged,
cut, swapped or not there. It takes about a minute."""
import collections
import concurrent.futures
import json
import os
import random
import re
import shutil
import signal
import subprocess
import sys
import threading
import time

import pytest

import index
import shards
from processes import HERE, PATIENCE, Cluster
from shards import ShardError

SHARDS, DOCUMENTS, EACH, WORDS = 8, 1500, 20, 2000
# The shard number 3 has the first id of more than 32 bits.
FIRST = 2**32 - 3 * DOCUMENTS - DOCUMENTS // 2
# Seconds for one batch.
LIMIT = 30
CALLS = {" ": set.intersection, " | ": set.union, " -": set.difference}


def word(chance):
    """The word number n is about n times as rare as w1."""
    return f"w{int(WORDS ** chance.random()) - 1}"


def query(chance, depth=2):
    """A random query: its text, and its answer from the set of each word."""
    sign = chance.choice([*CALLS, None]) if depth else None
    if not sign:
        name = word(chance)
        return name, lambda sets: sets[name]
    texts, answers = zip(*(query(chance, depth - 1) for _ in range(chance.randint(2, 3))))
    return f"({sign.join(texts)})", lambda sets: CALLS[sign](*(it(sets) for it in answers))


def some(count, seed):
    chance = random.Random(seed)
    return [query(chance) for _ in range(count)]


@pytest.fixture(scope="session")
def texts(tmp_path_factory):
    """Files of lines of words."""
    folder, chance = tmp_path_factory.mktemp("texts"), random.Random(1)
    for number in range(SHARDS):
        lines = (" ".join(word(chance) for _ in range(EACH)) + "\n" for _ in range(DOCUMENTS))
        (folder / f"{number}.txt").write_text("".join(lines), encoding="utf-8")
    return sorted(map(str, folder.iterdir()))


@pytest.fixture(scope="session")
def sets(texts):
    """By word the ids of the lines that have it."""
    found, id = collections.defaultdict(set), FIRST
    for path in texts:
        with open(path, encoding="utf-8") as file:
            for line in file:
                for it in line.split():
                    found[it].add(id)
                id += 1
    return found


@pytest.fixture(scope="session")
def cluster(tmp_path_factory):
    with Cluster(3, tmp_path_factory.mktemp("cluster")) as it:
        yield it


@pytest.fixture(scope="session")
def quick(tmp_path_factory):
    """Gives up a task after one death, and a worker that is silent for six seconds."""
    settings = {"DASK_DISTRIBUTED__SCHEDULER__ALLOWED_FAILURES": "0", "DASK_DISTRIBUTED__SCHEDULER__WORKER_TTL": "6s"}
    with Cluster(3, tmp_path_factory.mktemp("quick"), **settings) as it:
        yield it


@pytest.fixture(scope="session")
def folder(cluster, texts, tmp_path_factory):
    """Of an index that the workers built."""
    found = tmp_path_factory.mktemp("index")
    index.build(cluster.client, texts, found, FIRST)
    return found


@pytest.fixture
def copied(folder, tmp_path):
    """The folder of an index that a test may damage."""
    return shutil.copytree(folder, tmp_path / "index")


def contents(folder):
    """The bytes of all files in the folders of a folder, by their names there."""
    return {it.name: it.read_bytes() for it in folder.glob("*/*")}


def right(found, sets, asked):
    return [it.tolist() for it in found] == [sorted(answer(sets)) for _, answer in asked]


def settled(tasks):
    """Waits until some tasks are done and no more will be. Returns what they are."""
    deadline, before, since = time.monotonic() + PATIENCE, None, 0
    while time.monotonic() < deadline:
        now = collections.Counter(it.status for it in tasks)
        if now != before:
            before, since = now, time.monotonic()
        if now["finished"] and time.monotonic() - since > 1.5:
            break
        time.sleep(0.05)
    return set(before)


def test_answers(cluster, folder, sets):
    built, asked = index.Index(cluster.client, folder), some(120, 2)
    found = built.ask([text for text, _ in asked])
    assert right(found, sets, asked)
    assert built.ask([text for text, _ in asked], counted=True) == [len(it) for it in found]
    all_ids = [id for it in found for id in it.tolist()]
    assert min(all_ids) < 2**32 <= max(all_ids) and len(all_ids) > 10_000
    assert [it["first"] for it in built.shards] == [FIRST + it * DOCUMENTS for it in range(SHARDS)]
    assert [it.tolist() for it in built.ask(["nowhere", "w0 -w0"])] == [[], []]
    assert built.ask([], counted=True) == []


def test_what_is_not_built(cluster, texts, tmp_path):
    for files, first in ([], 0), (texts, -1), (texts, 2**63):
        with pytest.raises(ValueError, match="first id"):
            index.build(cluster.client, files, tmp_path, first)
    assert not any(tmp_path.iterdir())


def test_a_build_that_fails(cluster, texts, copied, sets):
    """The index that was there stays, for workers that did not map it too, and nothing is left of the build."""
    before = sorted(map(str, copied.rglob("*")))
    with pytest.raises(OSError, match="none.txt"):
        index.build(cluster.client, [*texts[:3], "/none.txt"], copied)
    cluster.kill(*cluster.workers)
    cluster.add(3)
    assert index.Index(cluster.client, copied).ask(["w5 w6"], counted=True, patience=LIMIT) == [len(sets["w5"] & sets["w6"])]
    deadline = time.monotonic() + LIMIT
    while sorted(map(str, copied.rglob("*"))) != before and time.monotonic() < deadline:
        time.sleep(0.1)
    assert sorted(map(str, copied.rglob("*"))) == before


def test_no_task_of_a_build_that_fails_is_left(cluster, texts, tmp_path):
    """Tasks run and wait when it fails. The scheduler forgets them, though the error, which is kept here, still has the build's variables."""

    def known():
        return set(cluster.client.run_on_scheduler(lambda dask_scheduler: list(dask_scheduler.tasks)))

    before = known()
    with pytest.raises(OSError, match="none.txt") as error:
        index.build(cluster.client, [*texts, "/none.txt", *9 * texts], tmp_path)
    deadline = time.monotonic() + LIMIT
    while known() - before and time.monotonic() < deadline:
        time.sleep(0.1)
    assert known() - before == set(), error


def test_a_build_over_an_index(cluster, texts, copied, sets):
    """It takes the place of the one before at once. Whoever had opened that one is answered from its shards as long as workers have them mapped."""
    for _ in range(4):
        index.Index(cluster.client, copied).ask(["w1"], patience=LIMIT)
    (copied / "mine.txt").write_text("of somebody else")
    found = index.build(cluster.client, texts[:2], copied, FIRST)
    wanted = [it for it in sorted(sets["w1"]) if it < FIRST + 2 * DOCUMENTS]
    assert found.ask(["w1"])[0].tolist() == wanted == index.Index(cluster.client, copied).ask(["w1"])[0].tolist()
    assert sorted(it.name for it in copied.iterdir()) == sorted([os.path.dirname(found.shards[0]["file"]), "mine.txt", index.NAME])
    assert sorted(contents(copied)) == ["00000.shard", "00001.shard"]


def test_only_generations_are_removed(cluster, texts, tmp_path):
    """An index that names other folders costs no file of others."""
    (tmp_path / "index" / "mine").mkdir(parents=True)
    (tmp_path / "index" / "mine" / "00000.shard").write_bytes(b"1")
    table = [{"file": it, "first": 0} for it in ("mine/00000.shard", "00001.shard", "../index/00002.shard", "/tmp/00003.shard")]
    (tmp_path / "index" / index.NAME).write_text(json.dumps({"shards": table, "crc": index.crc_of(table)}))
    index.build(cluster.client, texts[:1], tmp_path / "index")
    assert (tmp_path / "index" / "mine" / "00000.shard").read_bytes() == b"1"


def test_two_builds_at_once(cluster, texts, sets, tmp_path):
    """They share no task, though their shards have the same names."""
    with concurrent.futures.ThreadPoolExecutor(2) as pool:
        one = pool.submit(index.build, cluster.client, texts[:4], tmp_path / "one", FIRST)
        two = pool.submit(index.build, cluster.client, texts[4:], tmp_path / "two", FIRST + 4 * DOCUMENTS)
        found = [it.result(timeout=PATIENCE).ask(["w3"])[0].tolist() for it in (one, two)]
    assert found[0] + found[1] == sorted(sets["w3"]) and min(map(len, found)) > 0


def flipped(path, at):
    data = bytearray(path.read_bytes())
    data[at] ^= 0x40
    path.write_bytes(data)


def test_damaged_set(cluster, copied, sets):
    """The error names the file, the word and the fault, and other words still have answers."""
    built = index.Index(cluster.client, copied)
    path = copied / built.shards[5]["file"]
    shard = shards.Shard(str(path), built.shards[5]["crc"])
    start = len(path.read_bytes()) - shard.map.size() + shard.sets
    place = [bytes(shard.bytes_of("word", it)) for it in range(len(shard.rows))].index(b"w7")
    flipped(path, start + int(shard.rows["set"][place]) - 1)
    assert built.ask(["w6 w8"], counted=True) == [len(sets["w6"] & sets["w8"])]
    for counted in False, True:
        with pytest.raises(ShardError) as error:
            built.ask(["w6", "w6 | w7"], counted)
        assert error.value.args[:2] == (str(path), "w7") and error.value.fault
        assert str(error.value).startswith(f"{path}: the set of 'w7': ")


def test_damaged_files(cluster, copied):
    """A shard that is not there, cut, empty, another one, or of another build; and a damaged index."""
    built = index.Index(cluster.client, copied)
    first, second = (copied / it["file"] for it in built.shards[:2])
    whole = first.read_bytes()
    for data, fault in {
        None: "No such file",
        b"": "empty file",
        whole[:20]: "buffer",
        whole[:300]: "buffer",
        second.read_bytes(): "not the shard that the index has",
    }.items():
        first.unlink(missing_ok=True)
        if data is not None:
            first.write_bytes(data)
        with pytest.raises(ShardError, match=fault) as error:
            built.ask(["w1"])
        assert error.value.args[:2] == (str(first), None)
    table = copied / index.NAME
    table.write_bytes(table.read_bytes().replace(b'"first": 429', b'"first": 428'))
    with pytest.raises(ShardError, match="damaged"):
        index.Index(cluster.client, copied)
    table.unlink()
    with pytest.raises(FileNotFoundError, match=index.NAME):
        index.Index(cluster.client, copied)


def test_cut_after_it_was_mapped(cluster, copied):
    built = index.Index(cluster.client, copied)
    for _ in range(4):
        built.ask(["w1"], patience=LIMIT)
    path = copied / built.shards[2]["file"]
    os.truncate(path, 0)
    # A worker that had not mapped it finds an empty file.
    with pytest.raises(ShardError, match="cut|empty") as error:
        built.ask(["w1 | w2"], patience=LIMIT)
    assert error.value.file == str(path) and len(cluster.known()) == 3


def test_a_worker_is_killed(cluster, folder, sets):
    """It is stopped first, so that it surely has tasks when it dies."""
    built, asked = index.Index(cluster.client, folder), some(400, 3)
    cluster.signal(signal.SIGSTOP, cluster.workers[1])
    tasks = built.submit([text for text, _ in asked])
    assert settled(tasks.values()) == {"finished", "pending"}
    cluster.kill(cluster.workers[1])
    assert right(built.join(tasks, patience=LIMIT), sets, asked) and len(cluster.known()) == 2
    cluster.add(1)
    assert right(built.ask([text for text, _ in asked]), sets, asked)


def test_a_worker_is_killed_while_it_builds(cluster, folder, texts, tmp_path):
    cluster.signal(signal.SIGSTOP, cluster.workers[1])
    pool = concurrent.futures.ThreadPoolExecutor(1)
    done = pool.submit(index.build, cluster.client, texts, tmp_path, FIRST)
    deadline = time.monotonic() + PATIENCE
    while not any(tmp_path.glob("*/*.shard")) and time.monotonic() < deadline:
        time.sleep(0.05)
    time.sleep(1.5)
    assert not done.done() and any(tmp_path.glob("*/*.shard")) and not (tmp_path / index.NAME).exists()
    cluster.kill(cluster.workers[1])
    done.result(timeout=PATIENCE)
    cluster.add(1)
    assert contents(tmp_path) == contents(folder)


def test_all_workers_are_killed(cluster, folder, sets):
    """The answer waits for another one."""
    built, asked = index.Index(cluster.client, folder), some(50, 4)
    cluster.signal(signal.SIGSTOP, *cluster.workers)
    tasks = built.submit([text for text, _ in asked])
    cluster.kill(*cluster.workers)
    with pytest.raises(TimeoutError, match="00007.shard"):
        built.ask(["w1"], patience=0.5)
    cluster.add(3)
    assert right(built.join(tasks, patience=LIMIT), sets, asked)


def test_death_without_another_try(quick, folder):
    """If a task is given up since workers died, the error names its shard."""
    built = index.Index(quick.client, folder)
    quick.signal(signal.SIGSTOP, quick.workers[0])
    tasks = built.submit(["w1", "w2 w3"], counted=True)
    assert settled(tasks.values()) == {"finished", "pending"}
    quick.kill(quick.workers[0])
    with pytest.raises(ShardError, match="died") as error:
        built.join(tasks, counted=True, patience=LIMIT)
    assert error.value.file in tasks and error.value.word is None
    quick.add(1)


def test_a_worker_is_silent(quick, folder, sets):
    """One that only stops is given up after the time that Dask is configured for. Its tasks are given to others."""
    built, asked = index.Index(quick.client, folder), some(30, 5)
    quick.client.run_on_scheduler(lambda dask_scheduler: setattr(dask_scheduler, "allowed_failures", 3))
    quick.signal(signal.SIGSTOP, quick.workers[0])
    tasks = built.submit([text for text, _ in asked])
    assert "pending" in settled(tasks.values())
    assert right(built.join(tasks, patience=LIMIT), sets, asked) and len(quick.known()) < 3


def test_other_pools(folder, texts, sets, tmp_path):
    """What a task calls needs no Dask."""
    with concurrent.futures.ProcessPoolExecutor(2) as pool:
        sizes = list(pool.map(shards.write_lines, texts, [f"{tmp_path}/{it}" for it in range(SHARDS)]))
        asked = [pool.submit(shards.answers, f"{tmp_path}/{it}", sizes[it]["crc"], [("and", "w1", "w2")], True) for it in range(SHARDS)]
        assert sum(it.result()[0] for it in asked) == len(sets["w1"] & sets["w2"])


def called(cluster, *words, given=""):
    """What a terminal shows while a command runs, what the command prints, and its status."""
    ours, theirs = os.openpty()
    seen = []

    def listen():
        try:
            while piece := os.read(ours, 1000):
                seen.append(piece)
        except OSError:
            pass  # nobody has the other end any more

    reader = threading.Thread(target=listen)
    reader.start()
    command = [sys.executable, f"{HERE}/index.py", words[0], cluster.client.scheduler.address, *map(str, words[1:])]
    done = subprocess.run(command, input=given, stdout=subprocess.PIPE, stderr=theirs, text=True, env=cluster.environment, timeout=120)
    os.close(theirs)
    reader.join()
    os.close(ours)
    return b"".join(seen).decode(), done.stdout, done.returncode


def test_command(cluster, texts, sets, tmp_path):
    """The commands show a bar on a terminal, and nothing but answers in their output."""
    seen, printed, status = called(cluster, "build", tmp_path / "it", "--first", FIRST, *texts)
    postings = sum(map(len, sets.values()))
    assert re.fullmatch(rf"{SHARDS} shards, {SHARDS * DOCUMENTS} documents, {postings} postings, \d+ bytes\n", printed) and status == 0
    assert re.search(r"\[#{40}\] \| 100% Completed", seen)
    asked = some(25, 6)
    seen, printed, status = called(cluster, "ask", "--batch", 10, tmp_path / "it", given="".join(f"{it}\n" for it, _ in asked))
    assert printed == "".join(f"{len(answer(sets))}\n" for _, answer in asked) and status == 0
    assert re.search(r"\[#{40}\] \| 100% Completed", seen)
    _, printed, status = called(cluster, "ask", "--ids", tmp_path / "it", given="w9 w5\n")
    assert printed == " ".join(map(str, sorted(sets["w9"] & sets["w5"]))) + "\n" and status == 0
    for words, given, message in (
        (["ask", tmp_path / "none"], "w1\n", index.NAME),
        (["build", tmp_path / "new", tmp_path / "none.txt"], "", "none.txt"),
    ):
        seen, printed, status = called(cluster, *words, given=given)
        said = seen.rpartition("\33[2K\r")[2]  # after the bar
        assert (printed, status) == ("", 2) and said.startswith("index.py: ") and message in said
    seen, printed, status = called(cluster, "ask", "--batch", 2, tmp_path / "it", given="w1\n(w2\n\nw3 -w4\nw5")
    counts = [len(it) for it in (sets["w1"], sets["w3"] - sets["w4"], sets["w5"])]
    assert printed == f"{counts[0]}\n?\n?\n{counts[1]}\n{counts[2]}\n" and status == 2
    assert "index.py: line 2: the query '(w2': a bracket is not closed" in seen and "index.py: line 3: the query ''" in seen
