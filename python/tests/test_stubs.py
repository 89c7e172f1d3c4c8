"""The signatures that type checkers and help() read are those of the calls."""

import ast
import inspect
import pathlib

import fimulowen
import pytest
from fimulowen import _core

STUB = ast.parse((pathlib.Path(fimulowen.__file__).parent / "_core.pyi").read_text(encoding="ascii"))
CLASSES = {it.name: it for it in STUB.body if isinstance(it, ast.ClassDef)}


def functions(body):
    return {it.name: it.args for it in body if isinstance(it, ast.FunctionDef)}


def named(arguments):
    """The names of the parameters of a stub: those that are only by position, and the others."""
    return [[it.arg for it in arguments.posonlyargs], [it.arg for it in arguments.args]]


def real(call):
    """In the same way those of a call."""
    found = inspect.signature(call).parameters.values()
    kinds = (inspect.Parameter.POSITIONAL_ONLY, inspect.Parameter.POSITIONAL_OR_KEYWORD)
    return [[it.name for it in found if it.kind is kind] for kind in kinds]


def test_functions():
    stubs = functions(STUB.body)
    assert set(stubs) == {name for name in dir(_core) if inspect.isbuiltin(getattr(_core, name))}
    for name, arguments in stubs.items():
        assert named(arguments) == real(getattr(_core, name)), name


@pytest.mark.parametrize("name", CLASSES)
def test_classes(name):
    stubs, it = functions(CLASSES[name].body), getattr(_core, name)
    inherited = {*dir(object), "__module__", *(dir(_core.Packed) if name != "Packed" else ())}
    assert set(dir(it)) - inherited == set(stubs) - inherited
    for name, arguments in stubs.items():
        found = getattr(it, name)
        if inspect.ismethoddescriptor(found) and not name.startswith("__"):
            before, after = named(arguments)
            assert real(found) == [before + after, []] and after in ([], ["self"]), name


def test_signatures():
    """Arguments are named as users are told."""
    assert str(inspect.signature(fimulowen.IdSet)).startswith("(ids:") and list(inspect.signature(fimulowen.IdSet.open).parameters) == [
        "data"
    ]


@pytest.mark.parametrize("name", fimulowen.__all__)
def test_help(name):
    """Each public name, and each public call of a class, says what it does, and names types as its source does."""
    it = getattr(fimulowen, name)
    names = ["pack", "unpack"] if name == "chain" else dir(it) if inspect.isclass(it) else []
    calls = [getattr(it, name) for name in names if not name.startswith("_") and name not in dir(Exception)]
    assert inspect.getdoc(it) and name in dir(fimulowen)
    for call in filter(callable, [it, *calls]):
        assert inspect.getdoc(call) and "_typing" not in str(inspect.signature(call)), call
