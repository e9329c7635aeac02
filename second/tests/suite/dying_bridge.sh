#!/bin/sh
# Stands in for the bridge: it greets, and dies when a call has begun to come.
head -c 4 >/dev/null
printf 'nsoS'
head -c 4 >/dev/null
echo 'shot down' >&2
exit 7
