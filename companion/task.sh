#!/bin/sh
# Searches one shard of the folder in which this file stands: sh task.sh LINE [KILOBYTES]
#
# LINE is a line of tasks.txt, counted from 1. The book is written under a name of this task alone, and renamed once it is
# whole; with KILOBYTES the program takes no more memory. told/NAME.txt has what is known of the shard's last task, in one
# line: how it stands (work, done or failed), the machine, the process or Slurm's number, the second in which it began, and at
# its end the seconds that it took, the program's status and its line.

cd "$(dirname "$0")" || exit 1
read -r name cut place size <<END
$(sed -n "${1}p" tasks.txt)
END
if [ -z "$size" ]; then
  echo "task.sh: tasks.txt has no line $1" >&2
  exit 2
fi
if [ -e "books/$name.txt" ] || [ -e "cuts/$name.txt" ]; then
  exit 0
fi
machine=$(uname -n)
own=$name.$machine.$$.task
id=${SLURM_ARRAY_JOB_ID:+${SLURM_ARRAY_JOB_ID}_$SLURM_ARRAY_TASK_ID}
began=$(date +%s)

tell() {
  echo "$1 $machine ${id:-$$} $began $2" > "told/$own" && mv "told/$own" "told/$name.txt"
}

seconds() {
  echo $(($(date +%s) - began))
}

fail() {
  trap '' HUP TERM
  tell failed "$(seconds) $1 $(head -n 1 "told/$own.note")"
  rm -f "books/$own" "told/$own.note"
  exit "$1"
}

search() {
  if [ -n "$1" ]; then
    ulimit -S -v "$1"
  fi
  exec ./ringsearch
}

give_up() {
  kill -9 "$run" 2> /dev/null
  fail "$1"
}

trap 'give_up 129' HUP
trap 'give_up 143' TERM
tell work ""
tail -c "+$((place + 1))" "cuts/$cut.txt" | head -c "$size" | search "$2" > "books/$own" 2> "told/$own.note" &
run=$!
wait "$run"
status=$?
if [ "$status" -eq 0 ]; then
  mv "books/$own" "books/$name.txt" 2> "told/$own.note" || fail 1
  tell done "$(seconds)"
  rm -f "told/$own.note"
else
  fail "$status"
fi
