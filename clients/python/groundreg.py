"""A client of a register over HTTP: check, deposit and withdraw AGS4 files, list deposits and draw extracts.

One file, the standard library alone, Python 3.9 or later; SARIF needs the folder `tools` of an archive too.

    from groundreg import Register, tables
    register = Register("https://register.example.org", token, project="N1")
    for finding in register.check(data):        # none: the file is clean
        print(finding)
    receipt = register.deposit(data, embargo="2024-06-01")
    rows = tables(register.extract(receipt.number))["LOCA"]     # typed=True: numbers, days, data frames of pandas

`python -m groundreg check FILE ..` prints findings, as text, JSON or SARIF, and has the program's exit status; wrong
arguments have 64."""
from __future__ import annotations

import argparse
import contextlib
import datetime
import http.client
import ipaddress
import json
import os
import re
import ssl
import sys
import time
import urllib.parse
from dataclasses import asdict, dataclass, fields
from typing import Any, Dict, Iterable, Iterator, List, Optional

DEFINITIONS = ("TRAN", "ABBR", "UNIT", "TYPE", "DICT")


@dataclass(frozen=True)
class Finding:
    """A broken rule: its code (`2a`, `10c`), the line from 1 (0: the file as a whole), and the group or heading that
    it speaks of, or nothing."""
    code: str
    line: int
    subject: str

    def __str__(self) -> str:
        return f"{self.code} {self.line} {self.subject or '-'}"


@dataclass(frozen=True)
class Deposit:
    """A deposit of a listing: its number from 1, the firm that sent it, and the first day on which it is no longer
    under embargo (yyyy-mm-dd)."""
    number: int
    firm: str
    embargo: str


@dataclass(frozen=True)
class Receipt:
    """What a deposit is answered: its number, and its embargo. A file that is held already has the receipt of the first
    one."""
    number: int
    embargo: str


class Refused(Exception):
    """A request that was refused or failed, with the status of HTTP and the register's text."""

    def __init__(self, status: int, text: str):
        super().__init__(f"{status} {text}")
        self.status, self.text = status, text


class Denied(Refused):
    """403: the policy denies it by the rule of this number; 0 where no rule permits it."""

    def __init__(self, rule: int):
        super().__init__(403, f"denied {rule}")
        self.rule = rule


class HasFindings(Refused):
    """422: the file was not taken, since it has these findings."""

    def __init__(self, findings: List[Finding]):
        super().__init__(422, f"{len(findings)} findings")
        self.findings = findings


class Unknown(Refused):
    """404: no such deposit in this project, or none that this caller sees, or, of a withdrawal, none of the own
    firm."""


class TooLarge(Refused):
    """413: the file is longer than the register takes."""


class Full(Refused):
    """507: the register holds as many deposits as it may."""


class TooMany(Refused):
    """429: what is before the register takes no more requests just now."""


class Failed(Refused):
    """The register, or what is before it, failed. The request may have been done, and may be sent again: a deposit
    then has the receipt of the first one."""


class NotReached(Failed):
    """502: what is before the register had no answer of it, as where it is being started."""


class Unavailable(Failed):
    """503: the register could not read or write, or what is before it takes no more requests just now."""


class TimedOut(Failed):
    """504: what is before the register waited too long for its answer."""


class NotARegister(Exception):
    """The answer is not one of a register."""


KINDS = {404: Unknown, 413: TooLarge, 429: TooMany, 502: NotReached, 503: Unavailable, 504: TimedOut, 507: Full}
LONGEST_PAUSE = 60


class Register:
    """A register at a URL, as one caller sees it. Each call is one request; it may be used by one thread at a time.

    Over plain HTTP a token is sent to this machine alone. `retry` is how often a request is sent again, after 1, 2, 4
    and more seconds, where the connection fails or 429, 502, 503 or 504 is answered. Each request may be sent again: a
    deposit that was taken has the same receipt then, and a withdrawal the same answer."""

    def __init__(self, url: str, token: str, project: str, timeout: float = 120, retry: int = 0):
        parts = urllib.parse.urlsplit(url)
        if parts.scheme not in ("http", "https") or not parts.hostname:
            raise ValueError(f"not a URL of http or https: {url}")
        if parts.scheme == "http" and not is_loopback(parts.hostname):
            raise ValueError(f"the token would be sent in the clear, so {parts.hostname} needs https")
        if not re.fullmatch("[!-~]{1,64}", token):
            raise ValueError("a token is 1 to 64 characters from ! to ~")
        if not re.fullmatch("[A-Za-z0-9_-]{1,32}", project):
            raise ValueError("a project is 1 to 32 letters, digits, - or _")
        self.project, self.timeout, self.retry = project, timeout, retry
        self._token, self._parts, self._port = token, parts, parts.port

    def check(self, data: bytes) -> List[Finding]:
        """The findings of a file under the register's dictionary; none where it is clean."""
        try:
            self._json("POST", "check", data)
        except HasFindings as refused:
            return refused.findings
        return []

    def deposit(self, data: bytes, embargo: Optional[str] = None) -> Receipt:
        """Deposits a file until whose embargo day (yyyy-mm-dd; without one the register's day) a policy may hide it
        from others."""
        query = {"embargo": embargo} if embargo is not None else {}
        with of_a_register():
            return known(Receipt, self._json("POST", "deposits", data, query))

    def deposits(self) -> List[Deposit]:
        """The deposits that this caller sees, by number."""
        with of_a_register():
            return [known(Deposit, each) for each in self._json("GET", "deposits")["deposits"]]

    def extract(self, number: int, groups: Iterable[str] = ()) -> bytes:
        """The rows of a deposit that this caller is shown, of these groups and of PROJ with all that they need, or
        of all; an AGS4 file. A text is one group, or more with commas between them."""
        names = groups if isinstance(groups, str) else ",".join(groups)
        return self._request("GET", f"deposits/{number}", None, {"groups": names} if names else {})

    def withdraw(self, number: int) -> None:
        """Withdraws a deposit of the caller's own firm. It stays kept, and can be neither listed nor drawn from then
        on."""
        self._json("DELETE", f"deposits/{number}")

    def _json(self, method: str, path: str, data: Optional[bytes] = None,
              query: Optional[Dict[str, str]] = None) -> Dict[str, Any]:
        answer = self._request(method, path, data, query or {})
        try:
            return json.loads(answer)
        except ValueError:
            raise NotARegister("the answer is no JSON") from None

    def _request(self, method: str, path: str, data: Optional[bytes], query: Dict[str, str]) -> bytes:
        target = f"{self._parts.path.rstrip('/')}/v1/projects/{self.project}/{path}"
        if query:
            target += "?" + urllib.parse.urlencode(query)
        for sent in range(self.retry):
            try:
                return self._sent(method, target, data)
            except (ssl.SSLCertVerificationError, http.client.InvalidURL):
                raise
            except (OSError, http.client.HTTPException, Failed, TooMany):
                time.sleep(min(2 ** sent, LONGEST_PAUSE))
        return self._sent(method, target, data)

    def _sent(self, method: str, target: str, data: Optional[bytes]) -> bytes:
        """The body of the answer to a request that is sent once."""
        kind = http.client.HTTPSConnection if self._parts.scheme == "https" else http.client.HTTPConnection
        connection = kind(self._parts.hostname, self._port, timeout=self.timeout)
        try:
            connection.request(method, target, body=data, headers={"Authorization": f"Bearer {self._token}"})
            answer = connection.getresponse()
            body = answer.read()
            if not answer.chunked and answer.getheader("Content-Length") is None:
                raise http.client.IncompleteRead(body)  # an answer that was cut off within its head
        finally:
            connection.close()
        if answer.status != 200:
            raise refusal(answer.status, body)
        return body


def is_loopback(host: str) -> bool:
    """Whether what is sent to a host stays on this machine."""
    try:
        return host == "localhost" or ipaddress.ip_address(host).is_loopback
    except ValueError:
        return False


def known(kind: Any, told: Dict[str, Any]) -> Any:
    """What a reply has of the fields of a class. Its other keys, which a later register may send, are ignored."""
    return kind(**{field.name: told[field.name] for field in fields(kind)})


@contextlib.contextmanager
def of_a_register() -> Iterator[None]:
    """Raises NotARegister where a reply lacks what one of a register has."""
    try:
        yield
    except (KeyError, TypeError):
        raise NotARegister("the answer is another than a register's") from None


def refusal(status: int, body: bytes) -> Exception:
    """The exception for a reply that is no success."""
    try:
        told = json.loads(body)
        if status == 403:
            return Denied(told["denied"])
        if status == 422:
            return HasFindings([known(Finding, each) for each in told["findings"]])
        return KINDS.get(status, Refused)(status, told["error"])
    except (ValueError, KeyError, TypeError):
        if status in KINDS:
            return KINDS[status](status, "not answered by the register itself")
        return NotARegister(f"status {status}")


# A field with spaces around it, and the comma after it or the end of the line.
FIELD = re.compile(r' *"([^"]*(?:""[^"]*)*)" *(?:(,)|\Z)')


def rows_of(data: bytes) -> Iterable[List[str]]:
    """The rows of an AGS4 file without findings: each a descriptor and its fields."""
    return (fields_of(line) for line in data.decode("utf-8-sig").split("\r\n") if line.strip(" "))


def fields_of(line: str) -> List[str]:
    """The fields that spell a line."""
    fields, at = [], 0
    while True:
        match = FIELD.match(line, at)
        if match is None:
            raise ValueError(f"no row of AGS4, so the file has findings: {line[:60]!r}")
        fields.append(match[1].replace('""', '"'))
        if match[2] is None:
            return fields
        at = match.end()


class Table(List[Dict[str, Any]]):
    """The DATA rows of a group, each a dict of heading to entry. `attrs` has its units and types, by heading."""

    def __init__(self) -> None:
        super().__init__()
        self.attrs: Dict[str, Dict[str, str]] = {"units": {}, "types": {}}


def tables(data: bytes, typed: bool = False) -> Dict[str, Any]:
    """The DATA rows of a file without findings by group, each a dict of heading to entry.

    With `typed`, entries of the types nDP, nSF, nSCI and MC are numbers, days of type DT are datetimes, and null is
    None. Each group is then a pandas.DataFrame with such columns, if there is pandas, with `attrs` as a Table has."""
    groups: Dict[str, Table] = {}
    headings: List[str] = []
    for descriptor, *items in rows_of(data):
        if descriptor == "GROUP":
            table = groups[items[0]] = Table()
        elif descriptor == "HEADING":
            headings = items
        elif descriptor == "DATA":
            table.append(dict(zip(headings, items)))
        else:
            table.attrs["units" if descriptor == "UNIT" else "types"] = dict(zip(headings, items))
    return {name: typed_table(table) for name, table in groups.items()} if typed else groups


def dtype_of(kind: str, unit: str) -> str:
    """What pandas calls the values of a type and a unit."""
    if re.fullmatch("[0-9](DP|SF|SCI)|MC", kind):
        return "Int64" if kind == "0DP" else "float64"
    return "datetime64[ns]" if kind == "DT" and unit.startswith("yyyy-mm-dd") else "object"


def value_of(entry: str, dtype: str) -> Any:
    """The value of an entry; what is none of its type, as a day of the year 0, stays text."""
    values = {"Int64": int, "float64": float, "datetime64[ns]": datetime.datetime.fromisoformat, "object": str}
    try:
        return values[dtype](entry) if entry else None
    except ValueError:
        return entry


def typed_table(table: Table) -> Any:
    """A table with values of its types, as a data frame where there is pandas."""
    units, kinds = table.attrs["units"], table.attrs["types"]
    dtypes = {heading: dtype_of(kind, units[heading]) for heading, kind in kinds.items()}
    for row in table:
        row.update({heading: value_of(entry, dtypes[heading]) for heading, entry in row.items()})
    try:
        import pandas
    except ImportError:
        return table
    frame = pandas.DataFrame(list(table), columns=list(kinds), dtype=object)
    for heading, dtype in dtypes.items():
        # A column with a day before 1678, which is none of datetime64, has its values as they are.
        with contextlib.suppress(ValueError, TypeError):
            frame[heading] = frame[heading].astype(dtype)
    frame.attrs = table.attrs
    return frame


def as_sarif(found: Dict[str, List[Finding]], dictionary: Optional[str] = None) -> str:
    """The findings of files as `bin/explain --sarif` writes them, under the built-in dictionary or that of a file."""
    sys.path.append(os.path.join(os.path.dirname(os.path.realpath(__file__)), "..", "..", "tools"))
    try:
        import ags
        from explaining import explain, report
    except ImportError:
        raise OSError("SARIF needs the folder tools of an archive, two folders above this file") from None
    words, told = bytes_of(dictionary) if dictionary else None, []
    for path, each in found.items():
        findings = [ags.Finding(one.line, one.code, one.subject.encode()) for one in each]
        try:
            told.append(explain(bytes_of(path), findings, words, path))
        except ags.NoDictionary as why:
            raise OSError(f"dictionary refused: {why}") from None
    return report.sarif(*told)


def bytes_of(path: str) -> bytes:
    with open(path, "rb") as file:
        return file.read()


def print_findings(found: Dict[str, List[Finding]], form: str, dictionary: Optional[str]) -> None:
    if form == "json":
        print(json.dumps({path: [asdict(finding) for finding in each] for path, each in found.items()}, indent=1))
    elif form == "sarif":
        print(as_sarif(found, dictionary))
    else:
        for path, each in found.items():
            for line in [str(finding) for finding in each] or ["clean"]:
                print(f"{path}: {line}" if len(found) > 1 else line)


def check_files(register: Register, paths: List[str], form: str, dictionary: Optional[str]) -> int:
    """Checks files and prints their findings: 0 where all are clean, 1 where one has findings."""
    found = {path: register.check(bytes_of(path)) for path in paths}
    print_findings(found, form, dictionary)
    return 1 if any(found.values()) else 0


def status_of(error: Refused) -> int:
    """The program's exit status for a refusal."""
    return {403: 2, 404: 3, 413: 4, 429: 5, 507: 5}.get(error.status, 5 if error.status >= 500 else 4)


class Arguments(argparse.ArgumentParser):
    """Wrong arguments have the status 64, which is none of the program's."""

    def error(self, message: str) -> Any:
        self.exit(64, f"{self.format_usage()}groundreg: {message}\n")


def arguments(words: Optional[List[str]]) -> argparse.Namespace:
    parser = Arguments(prog="python -m groundreg", description="Checks AGS4 files at a register. The token is in the"
                                                               " environment as GROUNDREG_TOKEN.")
    parser.add_argument("command", choices=["check"])
    parser.add_argument("files", nargs="+")
    parser.add_argument("--url", default=os.environ.get("GROUNDREG_URL", "http://127.0.0.1:8017"))
    parser.add_argument("--project", default=os.environ.get("GROUNDREG_PROJECT"))
    parser.add_argument("--form", choices=["text", "json", "sarif"], default="text")
    parser.add_argument("--dictionary", help="the register's dictionary, for SARIF, if not the built-in one")
    parser.add_argument("--retry", type=int, default=0, help="how often a request that failed is sent again")
    given = parser.parse_args(words)
    token = os.environ.get("GROUNDREG_TOKEN")
    if not token:
        parser.error("no token: set GROUNDREG_TOKEN")
    if not given.project:
        parser.error("no project: give --project, or set GROUNDREG_PROJECT")
    try:
        given.register = Register(given.url, token, given.project, retry=given.retry)
    except ValueError as error:
        parser.error(str(error))
    return given


def main(words: Optional[List[str]] = None) -> int:
    given = arguments(words)
    try:
        return check_files(given.register, given.files, given.form, given.dictionary)
    except Refused as refused:
        print(f"groundreg: {refused.text}", file=sys.stderr)
        return status_of(refused)
    except (OSError, http.client.HTTPException, NotARegister) as error:
        print(f"groundreg: {error}", file=sys.stderr)
        return 6


if __name__ == "__main__":
    sys.exit(main())
