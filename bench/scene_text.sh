#!/bin/sh
# Times decode and encode on scene texts of 1, 4 and 16 MiB, and prints a table with the most memory that
# the program held, as a multiple of the text. The texts are bare cells without a blank, and scenes like
# the sample walk, indented as json.dumps(.., indent=2) does it, and all on one line.
# The program is proved and built first if need be.
set -eu
top=$(cd "$(dirname "$0")/.." && pwd)
program=$("$top/bench/program.sh")
python3 - "$program" <<'END'
import subprocess, sys

PROGRAM = sys.argv[1]

def measure(part, mib):
    """The bytes of the text, the seconds of the part alone and the most memory of the program, by a child of its own."""
    code = ("import resource, subprocess, sys; "
            "out = subprocess.run(sys.argv[1:], capture_output=True, text=True, check=True).stdout.split(); "
            "print(out[1], out[3], resource.getrusage(resource.RUSAGE_CHILDREN).ru_maxrss)")
    words = [sys.executable, "-c", code, PROGRAM, part, str(mib)]
    size, micros, kib = subprocess.run(words, capture_output=True, text=True, check=True).stdout.split()
    return int(size), int(micros) / 1e6, int(kib) * 1024

print("%-16s %10s %9s %8s %11s %8s" % ("part", "bytes", "seconds", "MiB/s", "memory", "of text"))
for part in ("decode", "decode-line", "decode-indented", "encode"):
    for mib in (1, 4, 16):
        size, seconds, most = measure(part, mib)
        print("%-16s %10d %9.3f %8.1f %7.0f MiB %8.1f"
              % (part, size, seconds, size / 2**20 / seconds, most / 2**20, most / size))
END
