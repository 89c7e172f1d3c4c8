"""How hypothesis runs all tests: the same examples each time, however long one takes; as many as the variable FIMULOWEN_EXAMPLES says, else 100."""

import os

from hypothesis import settings

EXAMPLES = int(os.environ.get("FIMULOWEN_EXAMPLES", 100))
settings.register_profile("gate", deadline=None, max_examples=EXAMPLES, derandomize=True, database=None)
settings.load_profile("gate")
