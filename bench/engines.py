#!/usr/bin/env python3
"""Times the recovery of engines that people know, on logs like those of bench/logs.py: 65,536 records of 8 to 16 bytes, updated by
transactions of eight updates each. Each engine writes its own log, is killed, and recovers from its last checkpoint.

usage: engines.py FOLDER [MEGABYTES]    FOLDER is made on the disk that is measured; 100 MB of log if nothing else is asked for

It takes what Debian calls db5.3-util, libdb5.3-dev and postgresql-15, a compiler, and, for PostgreSQL, a user `postgres` if root runs it.

Berkeley DB: one process, a B-tree, sixteen transactions at a time, the cache not written after the first checkpoint (bench/bdb.c). The
time is that of `db_recover`, from its start to its end.
PostgreSQL: one connection, a table with a primary key, a commit after each eight updates, no checkpoint after the first one. The times are
that of redo, as the server logs it, and from the start of the server until it accepts work.
"""
import os
import re
import shutil
import subprocess
import sys
import time

HERE = os.path.dirname(os.path.abspath(__file__))
BIN = "/usr/lib/postgresql/15/bin"
SETTINGS = {"max_wal_size": "16GB", "checkpoint_timeout": "1h", "shared_buffers": "128MB", "synchronous_commit": "off", "autovacuum": "off",
            "listen_addresses": "''", "log_min_messages": "log"}
TABLE = """create table cells (id int primary key, value bytea);
insert into cells select n, decode(md5(n::text), 'hex') from generate_series(0, 65535) n;
create procedure work(bytes bigint) language plpgsql as $$
declare start pg_lsn := pg_current_wal_insert_lsn(); updates bigint := 0; number int;
begin
  while pg_wal_lsn_diff(pg_current_wal_insert_lsn(), start) < bytes loop
    for n in 1..8 loop
      number := (random() * 65535)::int;
      update cells set value = substr(decode(md5(random()::text), 'hex'), 1, 8 + (random() * 8)::int) where id = number;
    end loop;
    updates := updates + 8;
    commit;
  end loop;
  raise notice 'updates %, bytes %', updates, pg_wal_lsn_diff(pg_current_wal_insert_lsn(), start);
end $$;
checkpoint;"""


def run(words, **more):
    return subprocess.run(words, check=True, text=True, capture_output=True, timeout=900, **more)


def berkeley(folder, size):
    program, home = os.path.join(folder, "bdb_maker"), os.path.join(folder, "bdb")
    run(["cc", "-O2", "-o", program, os.path.join(HERE, "bdb.c"), "-ldb-5.3"])
    shutil.rmtree(home, ignore_errors=True)
    os.mkdir(home)
    made = re.match(r"bytes (\d+) updates (\d+)", run([program, home, str(size)]).stdout)
    os.sync()
    begin = time.monotonic()
    run(["db5.3_recover", "-h", home])
    seconds = time.monotonic() - begin
    print(f"Berkeley DB: {int(made[1]) / 1e6:.0f} MB, {int(made[2]):,} updates: {seconds:.2f} s")


def postgres(folder, size):
    home = os.path.join(folder, "pg")
    shutil.rmtree(home, ignore_errors=True)
    os.mkdir(home)
    user = []
    if os.getuid() == 0:
        shutil.chown(home, "postgres")
        os.chmod(folder, 0o755)
        user = ["runuser", "-u", "postgres", "--"]
    data, log = os.path.join(home, "data"), os.path.join(home, "log")
    run([*user, f"{BIN}/initdb", "-D", data, "-A", "trust", "-U", "bench", "--no-sync"], cwd=home)
    with open(os.path.join(data, "postgresql.conf"), "a", encoding="utf-8") as file:
        file.writelines(f"{name} = {value}\n" for name, value in [*SETTINGS.items(), ("unix_socket_directories", f"'{home}'")])
    start = [*user, f"{BIN}/pg_ctl", "-D", data, "-l", log, "-w", "-s"]
    psql = [*user, "psql", "-X", "-h", home, "-U", "bench", "-d", "postgres"]
    quiet = {"cwd": home}
    subprocess.run([*start, "start"], check=True, stdout=subprocess.DEVNULL, stderr=subprocess.DEVNULL, timeout=60, **quiet)
    run([*psql, "-q", "-c", TABLE.replace("checkpoint;", "")], **quiet)
    run([*psql, "-q", "-c", "checkpoint"], **quiet)
    made = re.search(r"updates (\d+), bytes (\d+)", run([*psql, "-c", f"call work({size})"], **quiet).stderr)
    run([*psql, "-q", "-c", "set synchronous_commit = on; create table last (n int)"], **quiet)
    run([*start, "stop", "-m", "immediate"], **quiet)
    os.sync()
    begin = time.monotonic()
    subprocess.run([*start, "start"], check=True, stdout=subprocess.DEVNULL, stderr=subprocess.DEVNULL, timeout=300, **quiet)
    seconds = time.monotonic() - begin
    with open(log, encoding="utf-8") as file:
        redo = re.findall(r"redo done at .* elapsed: ([\d.]+) s", file.read())[-1]
    run([*start, "stop"], **quiet)
    print(f"PostgreSQL: {int(made[2]) / 1e6:.0f} MB, {int(made[1]):,} updates: redo {redo} s, until it accepts work {seconds:.2f} s")


def main():
    if len(sys.argv) not in (2, 3):
        sys.exit(__doc__)
    folder, size = os.path.abspath(sys.argv[1]), int(sys.argv[2] if len(sys.argv) == 3 else 100) * 1_000_000
    os.makedirs(folder, exist_ok=True)
    berkeley(folder, size)
    postgres(folder, size)


if __name__ == "__main__":
    main()
