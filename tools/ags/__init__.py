"""AGS4 files, read once for all tools: lines, groups, dictionaries, findings, and the rows with their steps.

    file = ags.File(data)                                # .lines .ends .rows .groups .by_name .by_line
    words = ags.built_in()                               # or ags.read_dictionary(data)[0]
    phase, findings = ags.first_findings(file, words)    # as the program finds them, in time linear in the file
    rows = ags.rows_of(data, words)                      # DATA rows by number, and their steps
    ags.written([(name, headings, units, types, rows)])  # a file as the register spells it

All bytes in, bytes out; nothing prints. conformance/reference.py is the witness of these findings, and imports nothing
of this package: it searches where this one looks up, and conformance/explain compares the two."""
from .dictionary import (Dictionary, GroupEntry, HeadingEntry, NoDictionary, built_in, own_entries,  # noqa: F401
                         read_dictionary)
from .entry import fits  # noqa: F401
from .file import LIMIT, MARK, File  # noqa: F401
from .finding import CODES, PHASES, RANK, Finding, in_order  # noqa: F401
from .findings import dictionary_findings, entry_findings, first_findings  # noqa: F401
from .group import DEFINITIONS, Group, Row, written  # noqa: F401
from .line import DESCRIPTORS, fields_of, line_of, quoted, shown  # noqa: F401
from .listed import Listed  # noqa: F401
from .phases import group_findings, line_findings, order_findings  # noqa: F401
from .rows import Rows, key_of, rows_of  # noqa: F401
