"""What functions accept and refuse: types, nulls, JSON and bytes."""

import json
import random
import re

import decoders
import pytest
from databases import TOP, connected, packed, refusal, unpacked, value

OF_ONE = ["from_roaring", "to_roaring", "len", "min", "max"]
OF_A_NUMBER = ["contains", "rank", "seek", "add", "remove"]
OF_SETS = [f"{name}{kind}" for name in ("intersect", "unite", "subtract", "xor") for kind in ("", "_len")]
AGGREGATES = ["unite_agg", "intersect_agg"]
ID = "and not an id from 0 to 4294967295"
REFUSED = {
    "idset(-1)": f"idset: argument 1 is -1, {ID}",
    "idset(5, 4294967296)": f"idset: argument 2 is 4294967296, {ID}",
    "idset(1.0)": "idset: argument 1 is a real number, and not an integer",
    "idset('[1,4294967296]')": f"idset: argument 1 has 4294967296, {ID}",
    "idset('[-1]')": f"idset: argument 1 has -1, {ID}",
    "idset('[18446744073709551617]')": f"idset: argument 1 has 18446744073709551617, {ID}",
    "idset_len('[1]')": "idset_len: argument 1 is text, and not a set: idset(..) makes one",
    "idset_unite(idset(1), 5)": "idset_unite: argument 2 is an integer, and not a set: idset(..) makes one",
    "idset_len(x'')": "idset_len: argument 1 is not a set: bytes are missing",
    "idset_from_roaring(7)": "idset_from_roaring: argument 1 is not a blob, and so not a bitmap",
    "idset_contains(idset(1), 'x')": "idset_contains: argument 2 is text, and not an integer",
    "idset_contains(idset(1), x'31')": "idset_contains: argument 2 is a blob, and not an integer",
    "idset_rank(idset(1), 1.5)": "idset_rank: argument 2 is a real number, and not an integer",
    "idset_range(idset(1), 0, 'y')": "idset_range: argument 3 is text, and not an integer",
    "idset_add(idset(1), -1)": f"idset_add: argument 2 is -1, {ID}",
    "idset_add(idset(1), '4294967296')": f"idset_add: argument 2 is 4294967296, {ID}",
    "idset_unite()": "idset_unite: wrong number of arguments",
    "idset_pack(-5)": f"idset_pack: argument 1 is -5, {ID}",
    "idset_pack('five')": "idset_pack: argument 1 is text, and not an integer",
    "idset_unite_agg(5)": "idset_unite_agg: argument 1 is an integer, and not a set: idset(..) makes one",
    "idset_intersect_agg(x'06')": "idset_intersect_agg: argument 1 is not a set: bytes are missing",
    "(SELECT count(*) FROM idset_each('[1]'))": "idset_each: argument 1 is not a blob, and so not a set",
    "(SELECT count(*) FROM idset_each(x'7F'))": "idset_each: argument 1 is not a set: the first byte does not begin what is opened",
    "(SELECT count(*) FROM idset_each(idset(1), 'x'))": "idset_each: argument 2 is not an integer",
    "(SELECT count(*) FROM idset_each(idset(1), 0, 1.5))": "idset_each: argument 3 is not an integer",
    "(SELECT count(*) FROM idset_each)": "idset_each: argument 1, a set, is missing",
}
# Texts that are no array, and the byte that is wrong.
NO_ARRAYS = {
    "": 1,
    "5": 1,
    "{1}": 1,
    "[": 2,
    "[1": 3,
    "[1,": 4,
    "[,1]": 2,
    "[1,,2]": 4,
    "[1 2]": 4,
    "[1[2]": 3,
    "[1.0]": 3,
    "[1e2]": 3,
    "[+1]": 2,
}
NO_ARRAYS |= {
    "[01]": 3,
    "[-]": 3,
    '["1"]': 2,
    "[1]]": 4,
    "[1] x": 5,
    "[null]": 2,
    "[1\0]": 3,
    "\0[1]": 1,
    "[1]\0": 4,
    "[\u00e9]": 2,
    "[1,]": 4,
}
ARRAYS = ["[]", " [ ] ", "[5]", "[-0]", "\t[ 1 ,\r\n 0 , 4294967295 ]\n", "[7,7,7,3]", "[0]"]


@pytest.mark.parametrize("sql", REFUSED)
def test_refused(db, sql):
    assert refusal(db, f"SELECT {sql}") == (REFUSED[sql], "SQLITE_ERROR")


@pytest.mark.parametrize("text", NO_ARRAYS)
def test_no_arrays(db, text):
    wanted = f"idset: argument 2 is not a JSON array of integers: byte {NO_ARRAYS[text]} is wrong"
    assert refusal(db, "SELECT idset('[3]', ?)", text) == (wanted, "SQLITE_ERROR")


@pytest.mark.parametrize("text", ARRAYS)
def test_arrays(db, text):
    assert unpacked(db, value(db, "SELECT idset(?)", text)) == sorted({*json.loads(text)})


def test_an_array_of_utf16():
    """A database whose texts have two bytes for each character."""
    with connected() as wide:
        wide.execute("PRAGMA encoding = 'UTF-16'")
        wide.execute("CREATE TABLE texts (text)")
        wide.execute("INSERT INTO texts VALUES ('[70000,3]')")
        assert unpacked(wide, value(wide, "SELECT idset(text) FROM texts")) == [3, 70000]
    wide.close()


def test_nulls(db):
    """Null in, null out, also beside what is no set."""
    calls = [f"idset_{it}(NULL)" for it in [*OF_ONE, *OF_SETS, *AGGREGATES, "pack"]] + ["idset(NULL)", "idset(1, NULL)", "idset('x', NULL)"]
    calls += [f"idset_{it}(NULL, 5)" for it in OF_A_NUMBER] + [f"idset_{it}(idset(5), NULL)" for it in [*OF_A_NUMBER, *OF_SETS]]
    calls += ["idset_range(NULL, 1, 2)", "idset_range(idset(1), NULL, 2)", "idset_range(idset(1), 1, NULL)", "idset_unite(x'06', NULL)"]
    calls += ["idset_min(idset())", "idset_max(idset())", "idset_seek(idset(5), 6)"]
    assert db.execute(f"SELECT {', '.join(calls)}").fetchall() == [(None,) * len(calls)]
    for given in ["NULL", "idset(5), NULL", "idset(5), 0, NULL"]:
        assert db.execute(f"SELECT * FROM idset_each({given})").fetchall() == []


def test_numbers_as_texts(db):
    """What .import of the shell stores."""
    assert value(db, "SELECT idset_contains(idset(5), '5')") == 1
    db.execute("CREATE TABLE imported (id TEXT)")
    db.executemany("INSERT INTO imported VALUES (?)", [("9",), ("10",)])
    assert unpacked(db, value(db, "SELECT idset_pack(id) FROM imported")) == [9, 10]


def test_flags(db):
    """All functions are deterministic, so that an index may have them, and innocuous, so that a schema may."""
    rows = db.execute("SELECT DISTINCT name, flags FROM pragma_function_list WHERE name LIKE 'idset%'").fetchall()
    assert len(rows) == 25 and all(flags & 0x800 and flags & 0x200000 for _, flags in rows)
    db.execute("PRAGMA trusted_schema = OFF")
    db.execute("CREATE TABLE tags (ids BLOB CHECK (idset(ids) IS ids), many INT AS (idset_len(ids)))")
    db.execute("CREATE INDEX least ON tags (idset_min(ids))")
    db.execute("CREATE VIEW all_ids AS SELECT id FROM tags, idset_each(ids)")
    db.execute("INSERT INTO tags VALUES (idset(8, 9))")
    assert db.execute("SELECT many, id FROM tags, all_ids WHERE idset_min(ids) = 8").fetchall() == [(2, 8), (2, 9)]
    assert refusal(db, "INSERT INTO tags VALUES (x'05')")[0].endswith(": argument 1 is not a set: bytes are missing")


def test_a_set_alone_is_returned(db):
    data = packed(db, range(0, 9999, 3))
    assert value(db, "SELECT idset(?)", data) == data
    assert value(db, "SELECT idset_add(?, 9)", data) == data
    assert value(db, "SELECT idset_remove(?, 10)", data) == data


def faults():
    """The words for each fault by its number, of the header of C."""
    header = (TOP / "include" / "bitpacking.h").read_text(encoding="utf-8")
    numbers = dict(re.findall(r"#define (BITPACKING_\w+) \((-\d+)\)", header))
    return {
        int(numbers[name]): text[0].lower() + text[1:-1] for name, text in re.findall(r'case (BITPACKING_\w+):\s+return "(.*)";', header)
    }


def rows(name):
    head, *lines = (TOP / "vectors" / f"{name}.tsv").read_text(encoding="ascii").splitlines()
    return [dict(zip(head.split("\t"), line.split("\t"))) for line in lines]


def data(text):
    return b"" if text == "-" else bytes.fromhex(re.sub(r"\{(\w+)\*(\d+)\}", lambda it: it[1] * int(it[2]), text))


def numbers(text):
    """Integers: `5-9` is 5 to 9, and `0-8/2` is 0 to 8 in steps of 2."""
    parts = re.findall(r"(\d+)(?:-(\d+))?(?:/(\d+))?", text)
    return [id for first, last, step in parts for id in range(int(first), int(last or first) + 1, int(step or 1))]


def test_sets_of_the_vectors(db):
    for row in rows("id_sets"):
        ids = numbers(row["ids"])
        assert unpacked(db, data(row["bytes"])) == ids and packed(db, ids) == data(row["bytes"])


def test_refused_bytes_of_the_vectors(db):
    words, found = faults(), rows("refused_id_sets")
    for row in found:
        wanted = f"argument 1 is not a set: {words[-20 - int(row['number'])]}"
        for name in ["idset", "idset_len", "idset_unite_agg"]:
            assert refusal(db, f"SELECT {name}(?)", data(row["bytes"])) == (f"{name}: {wanted}", "SQLITE_ERROR")
        assert refusal(db, "SELECT * FROM idset_each(?)", data(row["bytes"])) == (f"idset_each: {wanted}", "SQLITE_ERROR")
    assert len(found) > 100


def test_bitmaps_of_the_vectors(db):
    for row in rows("bitmaps"):
        made = value(db, "SELECT idset_from_roaring(?)", data(row["bytes"]))
        assert unpacked(db, made) == numbers(row["ids"])
        assert row["croaring"] == "no" or value(db, "SELECT idset_to_roaring(?)", made) == data(row["bytes"])
    words, found = faults(), rows("refused_bitmaps")
    for row in found:
        wanted = f"idset_from_roaring: argument 1 is not a bitmap of Roaring: {words[-20 - int(row['number'])]}"
        assert refusal(db, "SELECT idset_from_roaring(?)", data(row["bytes"])) == (wanted, "SQLITE_ERROR")
    assert len(found) > 100


def test_flipped_bits(db):
    """Bytes with a flipped bit are refused if and only if they are no set, and otherwise have the ids that the format says."""
    dice, opened, refused = random.Random(4), 0, 0
    for ids in [range(5), range(0, 900, 7), range(100_000), [it**2 for it in range(3000)], [it * 40_000 for it in range(900)]]:
        whole = packed(db, ids)
        for _ in range(50):
            damaged = bytearray(whole[: dice.choice([len(whole), len(whole), dice.randrange(len(whole))])])
            for _ in range(dice.choice([0, 1, 1, 3]) if damaged else 0):
                damaged[dice.randrange(len(damaged))] ^= 1 << dice.randrange(8)
            try:
                right = decoders.decode_set(bytes(damaged))
            except ValueError:
                assert "is not a set" in refusal(db, "SELECT idset_len(?)", bytes(damaged))[0]
                assert "is not a set" in refusal(db, "SELECT id FROM idset_each(?)", bytes(damaged))[0]
                refused += 1
            else:
                assert unpacked(db, bytes(damaged)) == right
                opened += 1
    assert opened > 30 and refused > 30
