"""Programs that stand before the true one, and are slow, or fail, where a test wants it."""

from pathlib import Path

from companion.tests.running import PROGRAM

# Hangs in the joins, or in the last search, which alone has --workers where there is no trail.
HANGS = """#!/bin/sh
case "$*" in {words}) exec sleep 600;; esac
exec {program} "$@"
"""

# Writes only so many bytes of a trail, and hangs then.
TORN_TRAIL = """#!/bin/sh
case "$*" in
  *--every*) {program} "$@" > {folder}/whole; head -c {size} {folder}/whole; exec sleep 600;;
esac
exec {program} "$@"
"""

# A search of a node of one lead hangs, or wants memory.
SHALLOW = """#!/bin/sh
if [ $# -eq 0 ]; then
  cat > {folder}/shard.$$
  if grep -q '^0 .$' {folder}/shard.$$; then {then}; fi
  exec {program} < {folder}/shard.$$
fi
exec {program} "$@"
"""

# Has no memory for one turn.
NO_MEMORY = """#!/bin/sh
if [ "$*" = "--turns 1" ]; then echo 'ringsearch: no memory' >&2; exit 8; fi
exec {program} "$@"
"""

# Does not know a mode, as an older program.
OLDER = """#!/bin/sh
case "$*" in *--do*) echo 'ringsearch: words 5 Mode' >&2; exit 2;; esac
exec {program} "$@"
"""

# Ends itself, or the shell that started it, the first time that it searches a node of one lead.
KILLED_ONCE = """#!/bin/sh
if [ $# -eq 0 ]; then
  cat > {folder}/shard.$$
  if grep -q '^0 .$' {folder}/shard.$$ && mkdir {folder}/killed 2> /dev/null; then kill -9 {whom}; fi
  exec {program} < {folder}/shard.$$
fi
exec {program} "$@"
"""

# The first shard without --turns that it searches ends with a status and a line.
FAILS_ONCE = """#!/bin/sh
if [ $# -eq 0 ] && mkdir {folder}/failed 2> /dev/null; then echo 'ringsearch: read failed' >&2; exit 6; fi
exec {program} "$@"
"""

# Has no memory for any shard.
NO_SHARD = """#!/bin/sh
if [ $# -eq 0 ]; then echo 'ringsearch: no memory' >&2; exit 8; fi
exec {program} "$@"
"""

# GNU parallel with one slot, which keeps its words.
PARALLEL = """#!/bin/sh
if [ "$1" = --version ]; then echo 'GNU parallel stand-in'; exit; fi
echo "$@" >> {folder}/words
while [ $# -gt 2 ]; do
  case "$1" in --joblog) log=$2;; --timeout) limit=$2;; sh*) task=$1;; esac
  shift
done
[ -e "$log" ] || echo Seq > "$log"
line=0 failed=0
while read -r _; do
  line=$((line + 1))
  if grep -q "^$line	.*	0	0	sh" "$log"; then continue; fi
  began=$(date +%s)
  timeout -k 20 "$limit" sh -c "exec $(echo "$task" | sed "s/{{#}}/$line/")" < /dev/null
  status=$?
  [ $status -eq 0 ] || failed=$((failed + 1))
  printf '%s\\t:\\t%s.0\\t %s.0\\t0\\t0\\t%s\\t0\\tsh\\n' $line $began $(($(date +%s) - began)) $status >> "$log"
done < "$2"
exit $failed
"""

# Slurm with one slot: an array has ended when it is taken, and the next job begins then. It keeps its words.
SBATCH = """#!/bin/sh
echo "$@" >> {folder}/words
number=$(($(cat {folder}/number 2> /dev/null || echo 6) + 1))
echo $number | tee {folder}/number
while [ $# -gt 0 ]; do
  case "$1" in --array) last=${{2#0-}};; --wrap) line=$2;; --output) notes=$2;; esac
  shift
done
if [ -z "$last" ]; then
  SLURM_JOB_ID=$number sh -c "$line" >> "$notes" 2>&1 < /dev/null &
  exit
fi
export SLURM_ARRAY_JOB_ID=$number SLURM_ARRAY_TASK_ID=0
while [ $SLURM_ARRAY_TASK_ID -le ${{last%\\%*}} ]; do
  timeout -k 20 {limit} sh -c "$line" >> "$notes" 2>&1 < /dev/null
  SLURM_ARRAY_TASK_ID=$((SLURM_ARRAY_TASK_ID + 1))
done
"""

# No job is at work, and an array has seven tasks at most.
SQUEUE = """#!/bin/sh
"""
SCONTROL = """#!/bin/sh
echo 'MaxArraySize            = 7'
"""


def write(folder: Path, text: str, name: str = "program", **values) -> Path:
    """The stand-in as a program of a folder."""
    file = folder / name
    file.write_text(text.format(program=PROGRAM, folder=folder, **values))
    file.chmod(0o755)
    return file
