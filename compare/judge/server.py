"""A PostgreSQL 15 server of its own, in a temporary folder and on a local socket there alone."""

import os
import pwd
import shutil
import subprocess
import tempfile

# Texts go in and out in hexadecimal digits, so that no byte means anything to COPY. An answer to an input is 0 and the
# microseconds since 1970-01-01, or the SQLSTATE, the message and its detail; to a moment it is its text, for which
# to_char gives NULL where the template is empty.
READ, WRITE = "instant_read", "text_written"
PREPARE = """
create unlogged table pairs (number bigint generated always as identity, template text, input text);
create function text_written(template text, moment text) returns text language sql as $$
    select encode(textsend(coalesce(to_char(moment::timestamp, template), '')), 'hex')
$$;
create function instant_read(template text, input text) returns text language plpgsql as $$
declare
    state text;
    message text;
    detail text;
begin
    return '0 ' || (extract(epoch from to_timestamp(input, template)) * 1000000)::bigint;
exception when others then
    get stacked diagnostics state = returned_sqlstate, message = message_text, detail = pg_exception_detail;
    return concat_ws(' ', state, encode(textsend(message), 'hex'), encode(textsend(detail), 'hex'));
end $$;
"""
TAKE = "copy pairs (template, input) from stdin"
ANSWER = """
copy (
    select {function}(convert_from(decode(template, 'hex'), 'UTF8'), convert_from(decode(input, 'hex'), 'UTF8'))
    from pairs
    order by number
) to stdout
"""

SETTINGS = """
listen_addresses = ''
unix_socket_directories = '{folder}'
unix_socket_permissions = 0700
timezone = 'UTC'
fsync = off
"""


def version(programs):
    """The server's version, as PostgreSQL writes it, if the folder has its programs."""
    try:
        said = subprocess.run([f"{programs}/postgres", "--version"], capture_output=True, text=True, check=True).stdout
    except (OSError, subprocess.CalledProcessError):
        return None
    return said.split()[2]


class Server:
    """Runs from entering to leaving `with`, however that is left."""

    def __init__(self, programs):
        self.programs = programs
        # without what would name another server
        self.surroundings = {name: value for name, value in os.environ.items() if not name.startswith("PG")}

    def __enter__(self):
        self.folder = tempfile.mkdtemp(prefix="judge")
        try:
            self.start()
        except BaseException:
            self.__exit__()
            raise
        return self

    def start(self):
        if self.owner():
            shutil.chown(self.folder, self.owner())
        self.run("initdb", "--no-locale", "--encoding=UTF8", "--auth=trust", "--username=postgres", "--no-sync")
        with open(f"{self.folder}/data/postgresql.conf", "a") as settings:
            settings.write(SETTINGS.format(folder=self.folder))
        self.run("pg_ctl", "start", "--wait", f"--log={self.folder}/log")
        self.ask(PREPARE)

    def __exit__(self, *_):
        try:
            if os.path.exists(f"{self.folder}/data/postmaster.pid"):
                self.run("pg_ctl", "stop", "--mode=immediate")
        finally:
            shutil.rmtree(self.folder)

    @staticmethod
    def owner():
        """The server refuses root: it then belongs to a user who can do less."""
        if os.geteuid() != 0:
            return None
        users = {user.pw_name for user in pwd.getpwall()}
        return "postgres" if "postgres" in users else "nobody"

    def run(self, program, *arguments):
        """One of the server's programs on its data, as its owner; what it writes is shown if it fails."""
        log = f"{self.folder}/commands"
        owner = self.owner()
        before = ["runuser", "-u", owner, "--"] if owner else []
        command = [*before, f"{self.programs}/{program}", f"--pgdata={self.folder}/data", *arguments]
        with open(log, "ab") as out:
            put = {"stdin": subprocess.DEVNULL, "stdout": out, "stderr": out}
            status = subprocess.run(command, cwd=self.folder, env=self.surroundings, **put).returncode
        if status:
            with open(log, errors="replace") as said:
                raise SystemExit(f"postgres: {program} failed:\n{said.read()}")

    def ask(self, sql, stdin=subprocess.DEVNULL, stdout=None):
        """Statements of SQL; COPY reads and writes the files given."""
        command = [f"{self.programs}/psql", "--no-psqlrc", "--quiet", "--set=ON_ERROR_STOP=1", f"--host={self.folder}"]
        command += ["--username=postgres", "--dbname=postgres", f"--command={sql}"]
        subprocess.run(command, check=True, stdin=stdin, stdout=stdout, env=self.surroundings)

    def answers(self, function, pairs, answers):
        """Reads lines of two columns in hexadecimal digits from one file, and writes an answer for each to another."""
        self.ask(TAKE, stdin=pairs)
        self.ask(ANSWER.format(function=function), stdout=answers)
