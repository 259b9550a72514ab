"""Other systems that do the work of a script, where the machine has them."""
import glob
import os
import pwd
import shutil
import subprocess
import tempfile
import time


def timed(command, text, **options):
    start = time.perf_counter()
    subprocess.run(command, input=text, stdout=subprocess.DEVNULL, stderr=subprocess.DEVNULL, check=True, **options)
    return time.perf_counter() - start, 0


class Sqlite:
    """sqlite3 over a database in memory. It has no functions of its own making, so a call is written out, and SUBSTRING takes places
    after commas."""

    name = "sqlite3"

    def __enter__(self):
        if shutil.which("sqlite3") is None:
            raise OSError("no program sqlite3")
        return self

    def __exit__(self, *_):
        pass

    def run(self, text):
        script = b"".join(line for line in text.replace(b"f(a)", b"a * a + 1").replace(b" FROM 3 FOR 6)", b", 3, 6)").splitlines(True) if not line.startswith(b"CREATE FUNCTION"))
        return timed(["sqlite3", ":memory:"], script)


class PostgreSQL:
    """A PostgreSQL server of its own, in a folder that goes when it is done. Tables are temporary."""

    name = "PostgreSQL"

    def __enter__(self):
        found = sorted(glob.glob("/usr/lib/postgresql/*/bin"))
        if not found or shutil.which("psql") is None:
            raise OSError("no PostgreSQL server")
        self.programs = found[-1]
        self.folder = tempfile.mkdtemp()
        user = "postgres" if os.getuid() == 0 else None
        if user:
            os.chown(self.folder, pwd.getpwnam(user).pw_uid, -1)
        self.options = {"user": user, "cwd": self.folder}
        self.server(["initdb", "-D", "data", "-U", "bench", "-A", "trust"])
        self.server(["pg_ctl", "-D", "data", "-w", "-l", "log", "-o", f"-c listen_addresses= -k {self.folder}", "start"])
        return self

    def server(self, command):
        command = [os.path.join(self.programs, command[0])] + command[1:]
        subprocess.run(command, stdout=subprocess.DEVNULL, stderr=subprocess.DEVNULL, check=True, **self.options)

    def __exit__(self, *_):
        self.server(["pg_ctl", "-D", "data", "-w", "-m", "immediate", "stop"])
        shutil.rmtree(self.folder)

    def run(self, text):
        script = text.replace(b"CREATE TABLE", b"CREATE TEMPORARY TABLE")
        script = script.replace(b"CREATE FUNCTION f (x INTEGER) RETURNS INTEGER RETURN", b"CREATE FUNCTION pg_temp.f (x BIGINT) RETURNS BIGINT LANGUAGE SQL IMMUTABLE RETURN")
        script = script.replace(b"f(a)", b"pg_temp.f(a)").replace(b"INTEGER", b"BIGINT")
        return timed(["psql", "-q", "-v", "ON_ERROR_STOP=1", "-h", self.folder, "-U", "bench", "postgres"], script, **self.options)


class MariaDB:
    """A MariaDB server of its own, in a folder that goes when it is done. Each script has a new database; tables are temporary. It is given
    routines alone."""

    name = "MariaDB"

    def __enter__(self):
        server = shutil.which("mariadbd")
        if server is None or shutil.which("mariadb") is None or shutil.which("mariadb-install-db") is None:
            raise OSError("no MariaDB server")
        self.folder = tempfile.mkdtemp()
        data = os.path.join(self.folder, "data")
        self.socket = os.path.join(self.folder, "socket")
        common = ["--no-defaults", f"--basedir={os.path.dirname(os.path.dirname(server))}", f"--datadir={data}"]
        quiet = {"stdout": subprocess.DEVNULL, "stderr": subprocess.DEVNULL}
        user = ["--user=root"] if os.getuid() == 0 else []
        install = ["mariadb-install-db", *common, *user, "--auth-root-authentication-method=normal", "--skip-test-db"]
        subprocess.run(install, check=True, **quiet)
        self.process = subprocess.Popen([server, *common, *user, f"--socket={self.socket}", "--skip-networking"], **quiet)
        for _ in range(300):
            if subprocess.run([*self.client(), "-e", "SELECT 1"], **quiet).returncode == 0:
                return self
            time.sleep(0.1)
        self.__exit__()
        raise OSError("a MariaDB server that does not answer")

    def __exit__(self, *_):
        self.process.terminate()
        self.process.wait()
        shutil.rmtree(self.folder)

    def client(self):
        return ["mariadb", "--no-defaults", f"--socket={self.socket}", "-u", "root"]

    def run(self, text):
        script = text.replace(b"CREATE TABLE", b"CREATE TEMPORARY TABLE").replace(b"INTEGER", b"BIGINT")
        return timed(self.client(), b"DROP DATABASE IF EXISTS bench; CREATE DATABASE bench; USE bench;\n" + script)
