"""Python's csv module on the files of the bench: a child that is told what to run (see src/importing/main.rs).

    write FILE TABLE LABEL OUT     reads FILE, writes its row lines to OUT, answers with their length
    time FILE TABLE LABEL RUNS     answers with the nanoseconds of each run, the file's bytes standing in memory

It reads by csv.reader and writes by join; it holds no field against the bracket texts and counts no fields, so it does less."""
import csv
import io
import pathlib
import sys
import time

# One field may be as long as a file.
csv.field_size_limit(1 << 30)


def lines(text, table, label):
    first = f"(row {table} {label} "
    records = csv.reader(io.StringIO(text.decode("latin-1"), newline=""), strict=True)
    return "".join([first + " ".join(record) + ")\n" for record in records]).encode("latin-1")


for line in sys.stdin:
    command, path, table, label, rest = line.rstrip("\n").split(" ")
    text = pathlib.Path(path).read_bytes()
    if command == "write":
        written = lines(text, table, label)
        pathlib.Path(rest).write_bytes(written)
        print(len(written), flush=True)
    else:
        taken = []
        for _ in range(int(rest)):
            start = time.perf_counter_ns()
            lines(text, table, label)
            taken.append(time.perf_counter_ns() - start)
        print(*taken, flush=True)
