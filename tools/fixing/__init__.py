"""Files fixed without a loss: what can be put right is changed, what needs a person is explained.

    check = checker("bin/groundreg", "dictionary.ags")        # or any function from bytes to findings
    done = fix(data, check, dictionary, Options(days="dmy"))
    done.data, done.changes, done.taken_back, done.remaining, done.is_clean, done.as_json(), done.diff("file.ags")

The advice of tools/explaining and these fixes are one implementation: other spellings, rows to add, the order of
headings and the form of entries are computed there."""
from .loop import Options, fix  # noqa: F401
from .program import Refused, checker  # noqa: F401
from .result import Done  # noqa: F401
