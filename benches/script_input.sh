#!/bin/sh
# Writes a script of so many messages (60000 where no number is given), after the session object of the server's stored run: in turn an Enter of
# a result, which replaces the one before it, and a query of the board, which a director is shown.
head -n 1 "$(dirname "$0")/../crates/bridge_server/stdin"
awk -v messages="${1:-60000}" 'BEGIN {
  for (i = 1; i <= messages; i++)
    if (i % 2)
      printf "{\"as\":\"k\",\"do\":[{\"board\":1,\"cmd\":\"Enter\",\"result\":{\"by\":\"N\",\"doubled\":0,\"level\":4,\"strain\":\"S\",\"tricks\":%d},\"table\":1}]}\n", i % 14
    else
      print "{\"as\":\"d\",\"ask\":\"board\",\"board\":1}"
}'
