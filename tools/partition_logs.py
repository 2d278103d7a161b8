#!/usr/bin/env python3
"""Logs of many partitions by hand: writes logs that hold runs of the flow Sum, and says what recovery owes of logs.

    tools/partition_logs.py write DIR N RUN.. [--batch B] [--clients K] [--life ROUNDS] [--trims ROUNDS]
    tools/partition_logs.py read DIR N

`write` (`log_writer`) puts the flows file of examples/sum and the logs of N partitions into a directory. A RUN is CLIENT:KEY, an instance
of Sum that a client starts and waits for, or a number of instances, each of one of K clients. Entries have up to B items; all partitions
begin a new incarnation every so many rounds, and let go of what was read every so many. `read` (`log_reader`) prints the table that
`show DIR --partitions N` is to print, or the fault's line, and ends with its status."""

import argparse
import sys
from pathlib import Path

sys.dont_write_bytecode = True

from log_reader import files_in, owed
from log_writer import SUM_FILE, put_logs, write_logs


def runs_of(word, clients):
    """The runs that a word of the command stands for."""
    if word.isdigit():
        return [(b"c%d" % (i % clients), b"k%d" % i) for i in range(int(word))]
    return [tuple(word.encode().split(b":"))]


def words():
    parser = argparse.ArgumentParser(description=__doc__, formatter_class=argparse.RawDescriptionHelpFormatter)
    commands = parser.add_subparsers(dest="command", required=True)
    for name in ("write", "read"):
        command = commands.add_parser(name)
        command.add_argument("folder", type=Path)
        command.add_argument("partitions", type=int)
    write = commands.choices["write"]
    write.add_argument("runs", nargs="+")
    for option, default in (("--batch", 16), ("--clients", 4), ("--life", 0), ("--trims", 1)):
        write.add_argument(option, type=int, default=default)
    return parser.parse_args()


def main():
    asked = words()
    if asked.command == "write":
        asked.folder.mkdir(exist_ok=True)
        flows = SUM_FILE.read_bytes()
        (asked.folder / "flows.json").write_bytes(flows)
        runs = [run for word in asked.runs for run in runs_of(word, asked.clients)]
        put_logs(asked.folder, write_logs(runs, asked.partitions, flows, batch=asked.batch, life=asked.life, trims=asked.trims))
        return 0
    status, line, table = owed((asked.folder / "flows.json").read_bytes(), files_in(asked.folder), asked.partitions)
    sys.stdout.buffer.write(table)
    if line:
        print(f"netherite: {line}", file=sys.stderr)
    return status


if __name__ == "__main__":
    sys.exit(main())
