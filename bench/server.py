"""The time that a PostgreSQL 15 server takes for to_timestamp, within the server."""

import json
import os
import pathlib
import sys
import tempfile

sys.path.insert(0, str(pathlib.Path(__file__).parent.parent / "compare"))

from judge import server as judge

PROGRAMS = os.environ.get("POSTGRES", "/usr/lib/postgresql/15/bin")
REPEATED = 2000
ROUNDS = 5
# an error ends a query
UNASKED = "refused"

TIMED = """
set jit = off;
set max_parallel_workers_per_gather = 0;
explain (analyze, timing off, format json)
select count({call}) from (values {lines}) as lines (line), generate_series(1, {repeated});
"""


def version():
    return judge.version(PROGRAMS)


def quoted(text):
    return f"$text${text}$text$"


def milliseconds(server, call, lines):
    """How long a query takes that makes a call for each of many lines."""
    values = ", ".join(f"({quoted(line)})" for line in lines)
    with tempfile.TemporaryFile("w+") as answer:
        server.ask(TIMED.format(call=call, lines=values, repeated=REPEATED), stdout=answer)
        answer.seek(0)
        # psql puts a plus at the end of a line that goes on
        told = answer.read().replace("+\n", "\n")
    return json.loads(told[told.index("[") : told.rindex("]") + 1])[0]["Execution Time"]


def nanoseconds(server, template, lines):
    """Of one call: what the query takes longer than one that only looks at the lines."""
    calls = f"to_timestamp(line, {quoted(template)})", "line"
    rounds = [[milliseconds(server, call, lines) for call in calls] for _ in range(ROUNDS)]
    with_call, without = map(min, zip(*rounds))
    return (with_call - without) * 1e6 / (REPEATED * len(lines))


def times(texts):
    """Lines of measurements for the templates and lines of the inputs, where there is a server."""
    if not version():
        return []
    with judge.Server(PROGRAMS) as server:
        measured = {
            name: nanoseconds(server, template, lines)
            for name, (template, *lines) in texts.items()
            if name != UNASKED
        }
    return [f"instant\tPostgreSQL {version()}\t{name}\t{number}" for name, number in measured.items()]
