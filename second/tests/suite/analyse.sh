#!/usr/bin/env bash
# Stands in for the text program: analyse.sh SECOND [FAULT] answers as `SECOND text` does, or with a fault of that name. The runtime of SECOND
# opens /dev/null where an end is closed, so closed ends are looked for here.
set -u
second=$1
fault=${2-}

fail() {
  echo "analyse: $1" >&2
  exit 1
}

if [ "$fault" != closed ]; then
  [ -e /proc/self/fd/0 ] || fail "standard input is closed: hand a request over"
  [ -e /proc/self/fd/1 ] || fail "standard output is closed: give the answer somewhere to go"
fi

case $fault in
byte) "$second" text | sed 's/^ver=0/ver=1/' ;;
unended) "$second" text | head -c -1 ;;
status) "$second" text && exit 3 ;;
errors) "$second" text && echo 'all is well' >&2 ;;
greedy) "$second" text && cat >/dev/null ;;
silent) "$second" text 2>/dev/null ;;
crash) "$second" text || kill -SEGV $$ ;;
*) exec "$second" text ;;
esac
