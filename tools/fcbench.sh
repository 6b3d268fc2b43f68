#!/usr/bin/env bash
# Runs a command of fcbench, by the program that commands.txt names: the proved verifier, the bench, which is proved too, or the tools, which are
# ordinary Rust. ./install puts this file into bin as fcbench, and the programs with commands.txt into libexec/fcbench: an installed copy runs
# these, whatever the environment says. In the checkout it is tools/fcbench.sh, and runs what FCBENCH (the verifier), FCBENCH_BENCH and
# FCBENCH_TOOLS name: ./fcbench sets them.
own=$(readlink -f "$0") || exit 70
case $own in
  */tools/fcbench.sh) commands=${own%/fcbench.sh}/fcbench-tools/commands.txt ;;
  *)
    folder=${own%/bin/*}/libexec/fcbench
    commands=$folder/commands.txt
    FCBENCH=$folder/fcbench-verifier FCBENCH_BENCH=$folder/fcbench-bench FCBENCH_TOOLS=$folder/fcbench-tools ;;
esac
export FCBENCH

# Becomes a program with these words, if it is there. Its help and its errors give the name by which it is started, which is fcbench for all.
become() {
  if [ ! -x "$1" ]; then
    echo 'fcbench: start ./fcbench, or install it with ./install' >&2
    exit 70
  fi
  exec -a fcbench "$@"
}

# Prints the kind of program that has a command; the tools say what is wrong with another word.
program_of() {
  while read -r name program _; do
    if [ "$name" = "$1" ]; then echo "$program"; return; fi
  done <"$commands"
  case $1 in --version | -V) echo verifier ;; *) echo tools ;; esac
}

case $#-${1:-} in
  1-help) set -- --help ;;
  2-help) set -- "$2" --help ;;
esac
case $(program_of "${1:-}") in
  verifier) become "${FCBENCH:-}" "$@" ;;
  bench) become "${FCBENCH_BENCH:-}" "$@" ;;
  tools) become "${FCBENCH_TOOLS:-}" "$@" ;;
  *) exit 70 ;;
esac
