"""A database of its own for each test."""

import databases
import pytest


@pytest.fixture
def db():
    connection = databases.connected()
    yield connection
    connection.close()
