#!/usr/bin/env bash
# examples/shell/ends.sh: asks a store of its own, in dsctl, and prints its answers. An empty line ends each answer.
set -eu

coproc STORE { dsctl replay --ends; }
ask() {
    echo "$1" >&"${STORE[1]}"
    while IFS= read -r line <&"${STORE[0]}" && [ -n "$line" ]; do echo "$line"; done
}

ask 'publish 0/2 new eth0 label 3.0 = 3/16'
ask 'retrieve eth0 label'
