# What the scripts of this folder share. A script sources it with `self` set: its own file, links resolved. One that builds and runs a program sets `in`, too: a descriptor that
# the program gets as its standard input.
here=${self%/*/*}
name=bin/${self##*/}

# A caller's POSIXLY_CORRECT would have a script end where a file can't be opened, before it has said so.
set +o posix

# What fails in a script itself is no refusal.
set -o errtrace
trap 'exit 2' ERR

# A standard descriptor that the caller closed is opened the wrong way round: it fails as a closed one does, and no other file slips into its place.
# Standard error is /dev/null then: who closes it wants no words.
true 9>&2 || exec 2>/dev/null
{ true 9>&0; } 2>/dev/null || exec 0>/dev/null
{ true 9>&1; } 2>/dev/null || exec 1</dev/null

# One line on standard error. A name may hold anything, so control characters are shown as `?`.
say() { printf '%s: %s\n' "$name" "${*//[[:cntrl:]]/?}" >&2 || :; }

refuse() {
  say "$*"
  exit 2
}

# Sets `tools`: the toolchain's folder for this machine, which has the loader and the C library that linked programs run on.
find_tools() {
  local rt kit=${RATTLE_HOME:-}
  if [ -z "$kit" ]; then
    rt=$(type -P rt) || refuse "rt is not on the path. Install the Rattle toolchain and put the folder that has rt on the path."
    kit=$(readlink -f -- "$rt")
    kit=${kit%/*/*}
  fi
  tools=$kit/on/$(uname -m)/toolchain
  [ -d "$tools" ] || tools=$kit/toolchain
  [ -x "$tools/lib/ld-linux-x86-64.so.2" ] || refuse "$tools/lib/ld-linux-x86-64.so.2: no such loader. Is the rt on the path that of a whole Rattle toolchain for this machine?"
}

# Built, and no source has changed since. What rt keeps of its own work, in the folders `out`, is no source.
built() { [ -x "$1" ] && [ -z "$(find "$here/crates" "$here/crates.txt" -name out -type d -prune -o -type f -newer "$1" -print -quit 2>/dev/null)" ]; }

# link NAME: proves the crate, links the program, and lays it in target/bin, whole or not at all. `rt run` is the one command that links a program, and runs it: what the
# program says on nothing, behind rt's last line, is not shown.
link() {
  cd "$here/crates/$1" || return
  rt run 2>&1 >/dev/null | sed '/^rt: running /,$d'
  [ "${PIPESTATUS[0]}" = 0 ] || return
  mkdir -p "$here/target/bin"
  cp "out/$1" "$here/target/bin/$1.new" && mv -f "$here/target/bin/$1.new" "$here/target/bin/$1"
}

# build NAME: proves and builds the program where it is not built yet, or older than the repository. One build at a time: a second script waits for the first one's build and
# finds it done. A build that failed leaves nothing to run. A signal during a build ends the script alone; the build goes on to its end, and a later script waits for it.
build() {
  local made=$here/target/bin/$1 why="$1 is not built yet" lock
  exec {lock}<"$here/bin/shared.bash"
  flock "$lock" 2>/dev/null || :
  if ! built "$made"; then
    [ ! -x "$made" ] || why="$1 is older than the repository"
    type -P rt >/dev/null || refuse "$why, and rt, which builds it, is not on the path. Install the Rattle toolchain and put the folder that has rt on the path."
    say "$why: proving and building it (some minutes)"
    if (trap - PIPE && link "$1") </dev/null >&2 {in}<&- && [ -x "$made" ]; then
      touch "$made" 2>/dev/null || :
    else
      rm -f "$made"
      refuse "$1 could not be built; what rt said stands above"
    fi
  fi
  exec {lock}<&-
}

# Whether the bytes are text in UTF-8.
is_text() {
  local LC_ALL=C
  [[ $1 == *[$'\x80'-$'\xff']* ]] || return 0
  local t=$'[\x80-\xbf]'
  local two=$'[\xc2-\xdf]'$t three=$'(\xe0[\xa0-\xbf]|[\xe1-\xec\xee\xef]'$t$'|\xed[\x80-\x9f])'$t
  local four=$'(\xf0[\x90-\xbf]|[\xf1-\xf3]'$t$'|\xf4[\x80-\x8f])'$t$t
  [[ $1 =~ ^([$'\x01'-$'\x7f']|$two|$three|$four)*$ ]]
}

# A program opens files by names in UTF-8 alone. What an argument names by other bytes it finds by a link: number I, in a folder that it is told of, leads to what its
# argument I names, as seen from where it stands.
link_room=''
make_link_room() {
  local base=${TMPDIR:-/tmp}
  [ -z "$link_room" ] || return 0
  is_text "$base" || base=/tmp
  link_room=$(mktemp -d "$base/poolmirror.XXXXXXXXXX") || refuse "$base: no folder can be made there, and a name that is no text needs one"
}
link_names() {
  local name i=0
  unset POOLMIRROR_NAMES POOLMIRROR_SAVED
  for name in "$@"; do
    i=$((i + 1))
    ! is_text "$name" || continue
    make_link_room
    export POOLMIRROR_NAMES=$link_room
    [[ $name == /* ]] || name=/proc/self/cwd/$name
    ln -s -- "$name" "$link_room/$i" 2>/dev/null || :
  done
  case ${1-} in read | write | unfold) link_saved "$#" "${!#}" ;; esac
}

# link_saved I NAME: a file is saved under a name in UTF-8 alone, too. Where argument I names another by other bytes, or by a link to such a name, number I in a second folder leads
# to where the program saves it: to what the name leads to, where that is text; else to a name of our own beside it, which has the permissions of what it replaces and is renamed
# once it is whole.
saved_as='' saved_for=''
link_saved() {
  local at='' room folder
  [ -L "$2" ] || ! is_text "$2" || return 0
  at=$(readlink -f -- "$2" 2>/dev/null && echo .) && at=${at%$'\n.'}
  ! is_text "$2" || ! is_text "$at" || return 0
  make_link_room
  room=$link_room/saved
  mkdir -- "$room" 2>/dev/null || return 0
  if [ -z "$at" ]; then
    # A loop of links; or there is no such folder.
    if [ -L "$2" ]; then at=$room/$1; else at=$room/none/none; fi
  elif is_text "$at"; then
    :
  elif [ -d "$at" ]; then
    at=$room
  elif [ -f "$at" ] || [ ! -e "$at" ]; then
    folder=${at%/*}
    ln -s -- "${folder:-/}" "$room/folder" 2>/dev/null || return 0
    saved_for=$at
    saved_as=$room/folder/poolmirror-$$-${link_room##*.}
    [ ! -f "$at" ] || cp --attributes-only --preserve=mode -- "$at" "$saved_as" 2>/dev/null || :
    at=$saved_as
  else
    return 0
  fi
  ! ln -s -- "$at" "$room/$1" 2>/dev/null || export POOLMIRROR_SAVED=$room
}

# keep_saved DONE: renames what was saved under a name of our own, or forgets it. False where it can't be renamed.
keep_saved() {
  local as=$saved_as
  [ -n "$as" ] || return 0
  saved_as=''
  if $1 && mv -fT -- "$as" "$saved_for" 2>/dev/null; then
    sync -- "${saved_for%/*}/" 2>/dev/null || :
    return
  fi
  rm -f -- "$as"
  ! $1
}

# Of the folder only the links, and the folder itself.
forget_links() {
  [ -n "$link_room" ] || return 0
  rm -f -- "$link_room"/[0-9]* "$link_room"/saved/[0-9]* "$link_room"/saved/folder
  rmdir -- "$link_room"/saved "$link_room" 2>/dev/null || :
  link_room=''
}

# run NAME [ARG..]: runs the linked program on the caller's own standard output, with the descriptor `in` as its standard input, and ends the script as it ended.
# The program has no exit status, so it writes one digit to descriptor 3, a pipe that is read here at its end. HUP, INT, QUIT and TERM end the program first (as TERM, since a
# shell's background process ignores INT and QUIT) and then the script, by the same signal.
caught='' running=''
catch() {
  caught=$1
  [ -z "$running" ] || kill -TERM "$running" 2>/dev/null || :
}
run() {
  local signal out told ended=0 digit=''
  for signal in HUP INT QUIT TERM; do trap "catch $signal" "$signal"; done
  link_names "${@:2}"
  exec {out}>&1
  exec {told}< <(exec "$BASH" "$here/bin/linked" "$@" 0<&"$in" 3>&1 1>&"$out" {in}<&- {out}>&-)
  running=$!
  [ -z "$caught" ] || catch "$caught"
  exec {in}<&- {out}>&-

  wait "$running" || ended=$?
  if [ -n "$caught" ]; then
    wait "$running" || :
    keep_saved false
    forget_links
    trap - "$caught"
    kill -s "$caught" "$$"
    exit $((128 + $(kill -l "$caught"))) # bash does not die of QUIT.
  fi

  read -r -n 1 -u "$told" digit || :
  if [ "$ended:$digit" = 0:0 ]; then
    keep_saved true || { say "$saved_for: can't be written: what was made can't be renamed to it" && digit=2; }
  else
    keep_saved false
  fi
  forget_links
  case $ended:$digit in
    0:[012]) exit "$digit" ;;
    2:) exit 2 ;; # bin/linked has said what is missing.
  esac
  if [ "$ended" -gt 128 ]; then
    say "$1 was ended by signal $(kill -l "$ended") before it was done; what it printed may lack its last lines"
  else
    say "$1 ended and did not say how it went (status $ended)"
  fi
  exit 2
}
