"""Runs a command under a hundred rising limits of its address space, and prints how its runs ended.

rising_limits.py LEAST STEP INPUT COMMAND ..

The first limit is LEAST KiB, and each further one STEP more. Standard input is the file INPUT. A run ends as

  right      its output and its status are those of the run without a limit
  fault      its status is 3 and the fault is Memory
  refused    its status is 3 and its last line is a refusal because memory ran out
  counted    its last line counts the lines that report that memory ran out
  not begun  the system ended it before it printed anything

A run that ends otherwise is printed with its limit. Then come the names of the ends that occurred, and the end of the
run under the greatest limit."""
import resource
import subprocess
import sys


# The messages of the program loader if it has no memory.
LOADER = ["loading shared libraries", "data structures for initial thread"]

# The ends of a run.
KNOWN = ["not begun", "fault", "refused", "counted", "right"]


def run(command, path, limit):
    def limited():
        resource.setrlimit(resource.RLIMIT_CORE, (0, 0))
        if limit is not None:
            resource.setrlimit(resource.RLIMIT_AS, (limit * 1024, limit * 1024))
    with open(path, "rb") as given:
        return subprocess.run(command, stdin=given, capture_output=True, preexec_fn=limited, check=False, timeout=60)


def outcome(done, whole):
    if (done.returncode, done.stdout, done.stderr) == (whole.returncode, whole.stdout, whole.stderr):
        return "right"
    faults = done.stderr.decode().splitlines()
    if done.returncode == 3 and faults == ["kbfeed: Memory"]:
        return "fault"
    if done.returncode == whole.returncode and len(faults) == 1 and faults[0].startswith("lines of want of memory: "):
        return "counted"
    if done.returncode == 3 and not faults and done.stdout.endswith(b"refused Memory\n"):
        return "refused"
    if done.returncode < 0 and not done.stdout and not done.stderr:
        return "not begun"
    if done.returncode == 127 and not done.stdout and any(said in faults[0] for said in LOADER):
        return "not begun"
    return f"{done.returncode} {done.stdout[:80]!r} {done.stderr[:80]!r}"


def main():
    least, step, path, command = int(sys.argv[1]), int(sys.argv[2]), sys.argv[3], sys.argv[4:]
    whole = run(command, path, None)
    met = []
    for turn in range(100):
        limit = least + turn * step
        met.append(outcome(run(command, path, limit), whole))
        if met[-1] not in KNOWN:
            print(limit, met[-1])
    print(", ".join(name for name in KNOWN[1:] if name in met) + "; at last " + met[-1])


if __name__ == "__main__":
    main()
