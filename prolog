#!/usr/bin/env bash
# ./prolog [options] FILE < QUERIES: runs the program. It takes the one that was built here, where no source changed since; else
# the released one, where the sources here are those it was built from; else it proves and builds one first (./build).
# Words, standard input, standard output and the exit status are the program's own; the status is 70 where it could not be built.
set -u
top=$(cd "$(dirname "$(readlink -f "$0")")" && pwd)
. "$top/release/functions"
of_program prolog
. "$top/release/start"
