"""Queries with many faults of a kind: `check` tells the first 1000 of them and how many more there are, in little memory."""
import resource
import subprocess

TOLD = 1000
# Too little for a million faults, each with its message.
MEMORY = 120_000_000
# What makes a fault, and the index of its byte in that.
UNITS = {"constructs": (b" [", 1), "marks": (b" ?,", 1), "joined names": (b" x:a,", 2), "unsteady bytes": (b" \xc3\xa9", 1)}


def told_of(program, query):
    """The status of `check`, the places that it tells, and its last line."""
    bound = resource.RLIMIT_AS, (MEMORY, MEMORY)
    ran = subprocess.run([program, "check"], input=query, capture_output=True, timeout=60,
                         preexec_fn=lambda: resource.setrlimit(*bound))
    lines = ran.stderr.decode().splitlines() or [""]
    places = [line.split(": ")[1] for line in lines if line.startswith("mysql_bind: (standard input):1:")]
    return ran.returncode, places, lines[-1]


def faults_of_many(program):
    """The kinds and numbers of faults of which `check` tells something else."""
    front = b"SELECT 1"
    for kind, (unit, at) in UNITS.items():
        columns = [len(front) + i * len(unit) + at + 1 for i in range(TOLD)]
        places = [f"(standard input):1:{column}" for column in columns]
        for count in TOLD, TOLD + 1, 1_000_000:
            status, found, last = told_of(program, front + unit * count + b" 1")
            rest = f"mysql_bind: (standard input): only the first 1000 are told: {count - TOLD} more of this kind"
            if (status, found) != (1, places) or (last == rest) != (count > TOLD):
                yield f"check, {count} {kind}: the status {status}, {len(found)} places, {last}"
