# What the tests of the scripts share: a room of their own, and `try`, which runs one case and counts it. A test sources it from the repository's root with `test` set, its own name.
root=$PWD
room=$(mktemp -d) || exit 2
trap 'rm -rf "$room"' EXIT
export LC_ALL=C
unset CDPATH
passed=0 failed=0

# A file's text with its last newlines, which $(..) alone would drop.
text() {
  cat "$1"
  echo .
}

# try CASE STATUS OUT ERR COMMAND..: runs a command. OUT and ERR are patterns for the whole of what it writes.
try() {
  local case=$1 want=$2 out=$3 err=$4 status=0 said wrote
  shift 4
  "$@" >"$room/out" 2>"$room/err" || status=$?
  wrote=$(text "$room/out") said=$(text "$room/err")
  # shellcheck disable=SC2053
  if [ "$status" = "$want" ] && [[ ${wrote%.} == $out && ${said%.} == $err ]]; then
    passed=$((passed + 1))
    echo "$test: $case"
    return
  fi
  failed=$((failed + 1))
  echo "$test: FAILED: $case: status $status, not $want"
  head -c 600 "$room/out" | sed 's/^/  output: /'
  head -c 600 "$room/err" | sed 's/^/  error: /'
}

in_folder() { (cd "$1" && "${@:2}"); }

# What the small example must print.
small=$(text examples/small/expected)
small=${small%.}

# The last line of a test, and its status.
counted() {
  echo "$passed passed, $failed failed"
  [ "$failed" = 0 ]
}
