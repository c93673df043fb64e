"""What a policy says and what it shows, before anything is served.

    rules, callers = read_policy(text), read_callers(text)    # or Refused
    policy_refusals(text), caller_refusals(text)              # all that is refused, with lines
    warnings(rules, callers, ags.built_in())
    hidden_rows(rules, caller, deposit, day, ags.rows_of(data, ags.built_in()))

The language of rules is that of docs/COMMANDS.md."""
from .refusals import HAS_TOML, TEXTS, caller_refusals, ordinal, policy_refusals  # noqa: F401
from .rules import Refused, decide, read_callers, read_policy  # noqa: F401
from .shown import counts, hidden_rows, is_project_shown, row_text  # noqa: F401
from .values import DAY_KEYS, VERBS, day_of, is_group_name, is_name  # noqa: F401
from .warnings import warnings  # noqa: F401
