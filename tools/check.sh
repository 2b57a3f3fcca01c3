#!/bin/sh
# Tests the scripts: the launcher, and those in tools/ that make scenes, films and parts of renders. The gate
# does not need it. VAZHETTIN=PROGRAM names the program, whose frames are compared then with what they should be; it is
# out/vazhettin of a checkout in which the launcher built it. What is missing on this machine is named, and its tests
# are left out. Words name some of the tests, as test_film.
set -u
here=$(cd "$(dirname "$0")" && pwd) || exit 1
failed=0
for tool in ffmpeg parallel shellcheck; do
    command -v "$tool" > /dev/null || echo "check: $tool is missing, its tests are left out: apt-get install $tool"
done
command -v sbatch > /dev/null \
    || echo "check: Slurm is missing, its tests are left out: apt-get install slurmctld slurmd slurm-client munge"
[ -n "${VAZHETTIN-}" ] || echo "check: VAZHETTIN names no program, so nothing is rendered"
if command -v shellcheck > /dev/null; then
    shellcheck "$here/../vazhettin" "$here"/*.sh "$here"/tests/*.sh "$here/../examples/check.sh" || failed=1
fi
python3 -B "$here/gate_times.py" --self-test || failed=1
(cd "$here/tests" && python3 -B -m unittest "$@") || failed=1
exit "$failed"
