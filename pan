#!/usr/bin/env bash
# The front door: finds the program, tells what a reader wants to know besides its text, and runs it.
set -eu
unset CDPATH
# What is said beside the text changes neither it nor the status, also where nobody can read it.
{ : >&2; } 2>/dev/null || exec 2>/dev/null
here=$(dirname "$(readlink -f "$0")")
# In the repository the helpers stand in contrib; contrib/install puts them into libexec/pan beside bin.
tools=$here/contrib
[ -d "$tools" ] || tools=$(dirname "$here")/libexec/pan

help() {
  cat <<'HELP'
pan compiles templates of the Pan language into one JSON profile for each machine.

  pan build SOURCE OUT [options]    compiles each object template below SOURCE into OUT, and tells faults
  pan watch SOURCE OUT [options]    the same, asked by lines on standard input (scan, build, why NAME, ..)
  pan demo COUNT START [options]    builds machines that are made up, in memory
  pan format SOURCE OUT             writes each template below SOURCE into OUT in its one layout (OUT may be SOURCE)
      --include LIST                folders below SOURCE where templates are looked for, joined by `:` (.)
      --max-iteration N             turns of one loop, 1 to 1,000,000 (10,000)
      --max-recursion N             calls of functions that are open at once, 1 to 200 (50)
      --most-removed N              changes nothing where more than N files of OUT would go, 0 to 20,000
      --state FILE                  (build, watch) goes on from what an earlier build kept in FILE, and keeps its own there

pan manages every .json and .dep file below OUT: give it a folder of its own. Its status is 0 where each object
has a profile, 1 where one has a fault, and more where something failed.

These are the script's own:

  pan format FILE..                 brings files to their layout; `-` is standard input, to standard output
  pan format --check PLACE..        names the files and templates of folders that have another layout, and changes nothing
  pan check SOURCE [options]        the faults of a build that publishes nothing
      --only NAME                   those of one object
  pan show SOURCE NAME [PATH] [options]
                                    the profile of an object, or what stands at a path of it; nothing is published
  pan blame SOURCE NAME [PATH] [options]
                                    where each value of that profile, at and below the path, was set last
  pan impact SOURCE FILE [options]  the objects that an edit of the file FILE below SOURCE can change
  pan unused SOURCE [options]       the templates below SOURCE that no object looks at
  pan state FILE                    what a file of --state keeps (wants `sqlite3`)
  pan --format FORM build|check ..  the faults for other programs in place of the text: `gcc` as compilers print them,
                                    `json` as an object of JSON on each line
  pan --quiet WORDS                 leaves out the notes on standard error
  pan --version                     the version, the kit that proved it, and its checksum
  pan --help                        this text

PAN_NOTES=changes adds a line for each profile that a build changed, PAN_NOTES=off leaves notes out.
HELP
  if [ -d "$here/crates" ]; then
    cat <<'HELP'

In the repository, where the program comes with it below dist:

  ./pan --prove                     proves this repository's sources and builds the program from them (wants `rt`)
  ./pan --release                   the same, and writes it to dist
  ./pan --try WORDS                 compiles these sources without any proof, in some minutes each time, and runs them
                                    slowly (a watcher's lines then come from a file: < FILE)

  ./pan build examples/site profiles
  contrib/pan-watch site profiles   builds again whenever a file of site changes
HELP
  fi
  cat <<'HELP'

The manual (man pan, docs/COMMANDS.md) says the rest, docs/FAULTS.md what a fault means and what to do.
HELP
}

say() { echo "pan: $*" >&2 || true; }

# The notes of a script, where notes are wanted.
note() { [ "${PAN_NOTES:-}" = off ] || "$tools/pan-notes" "$@" || true; }

# A folder for what is read on the way, as long as the script runs.
make_room() {
  room=$(mktemp -d) || exit 7
  trap 'rm -rf "$room"' EXIT
}

# Microseconds, whatever parts them from the seconds here.
now() { echo "${EPOCHREALTIME//[!0-9]/}"; }

# Writes a file to standard output.
write() { cat -- "$1" || exit 7; }

version() {
  local program version
  program=$("$tools/pan-program")
  version=$("$tools/pan-program" --of version)
  echo "pan ${version:-$program}"
  echo "proved with $("$tools/pan-program" --of kit)"
  echo "sha256 $(sha256sum "$program" | cut -d' ' -f1)"
}

# Words without a mode are told before the program is looked for.
has_mode() {
  local word
  for word in "$@"; do
    case $word in build | watch | demo | format | check | show | blame | impact | unused | state) return 0 ;; esac
  done
  return 1
}

# What the words name, as the program reads them where they are a command: `mode`, `source`, `out`, `include`, `state`, the
# options but for --most-removed and --state, how many places there are, and whether a word is no option and no place.
mode='' source='' out='' path='' include='' state='' has_state='' options=() place_count=0 has_wrong=''
read_words() {
  local word option='' places=()
  for word in "$@"; do
    case $option in
      --) places+=("$word"); continue ;;
      --include) include=$word ;;
      --state) state=$word ;;
    esac
    if [ -n "$option" ]; then
      case $option in --most-removed | --state) ;; *) options+=("$option=$word") ;; esac
      option=''
      continue
    fi
    case $word in
      --include=* | --max-iteration=* | --max-recursion=*) options+=("$word") ;;
      --most-removed=* | --state=*) ;;
      --include | --max-iteration | --max-recursion | --most-removed | --state | --) option=$word ;;
      -?*) has_wrong=1 ;;
      *) places+=("$word") ;;
    esac
    case $word in
      --include=*) include=${word#--include=} ;;
      --state | --state=*) has_state=1 state=${word#--state} state=${state#=} ;;
    esac
  done
  case $option in '' | --) ;; *) has_wrong=1 ;; esac
  mode=${places[0]:-} source=${places[1]:-} out=${places[2]:-} path=${places[3]:-}
  place_count=${#places[@]}
  case $source in -*) source=./$source ;; esac
  case $mode:$out in build:-* | watch:-*) out=./$out ;; esac
}

# The words of a command of the script's own: so many places at least, so many at most, and options of a build.
want_places() {
  if [ -n "$has_wrong$has_state" ] || [ "$place_count" -lt "$1" ] || [ "$place_count" -gt "$2" ]; then usage; fi
  [ -n "$source" ] || usage
}

# Makes the folder of the profiles, so that it can be locked; gives the first part of its path that was not there. For
# words that are no command, or a source that is no folder, nothing is made.
make_out() {
  local missing=$out above
  if [ -d "$out" ] || [ ! -d "$source" ] || [ -n "$has_wrong" ]; then return; fi
  while above=$(dirname -- "$missing") && [ ! -e "$above" ] && [ "$above" != "$missing" ]; do missing=$above; done
  if mkdir -p -- "$out" 2>/dev/null; then echo "$missing"; fi
}

# A folder that was made for nothing goes again, up to this part of its path.
unmake_out() {
  local empty=$out
  while rmdir -- "$empty" 2>/dev/null && [ "$empty" != "$1" ]; do empty=$(dirname -- "$empty"); done
}

# One program at a time works on a folder of profiles: another one waits until this one ends.
lock_out() {
  command -v flock >/dev/null && [ -d "$out" ] && [ -r "$out" ] || return 0
  exec 9<"$out"
  lock 9 "$out"
}

# .. and on a file of rows, behind the folder: the program itself would not wait for the file, and end.
lock_state() {
  command -v flock >/dev/null && [ -f "$1" ] && [ -r "$1" ] || return 0
  exec 8<"$1"
  lock 8 "$1"
}

# Makes the file of rows, empty, so that it can be locked; gives it where it was not there.
make_state() {
  if [ -n "$state" ] && [ ! -e "$state" ] && { : >>"$state"; } 2>/dev/null; then echo "$state"; fi
}

# A file that was made for nothing goes again.
unmake_state() { if [ -n "$1" ] && [ ! -s "$1" ]; then rm -f -- "$1"; fi; }

lock() {
  flock --nonblock "$1" && return
  say "another pan works on $2$(holder_of "$2"): waiting for it"
  flock "$1"
}

# The process that holds the lock of a folder or a file, where the system tells.
holder_of() {
  local node
  node=$(stat -c '%i' -- "$1" 2>/dev/null) || return 0
  awk -v node="$node" '$2 == "FLOCK" && $6 ~ ":" node "$" && $5 > 0 { print " (process " $5 ")"; exit }' /proc/locks 2>/dev/null
}

# The profiles below OUT: path, and what is another one for each file that was put.
profiles() {
  find -H "$out" -type f -name '*.json' -printf '%P\t%i %T@\n' 2>/dev/null | LC_ALL=C sort || true
}

# Runs a build: its text is below the room, and where the faults are for other programs, so are these.
run_build() {
  if [ -z "$form" ]; then "$@" >"$room/text"; return; fi
  PAN_NOTES=$form "$@" >"$room/text" 2>"$room/faults"
}

# What a build writes: its text, or the faults for other programs in place of it, but where it failed.
tell_text() {
  if [ -n "$form" ] && [ "$1" -le 1 ]; then placed <"$room/faults"; return; fi
  [ -z "$form" ] || cat "$room/faults" >&2 || true
  cat "$room/text"
}

# Slips in SOURCE are looked for while a build runs, and told behind it.
seek_slips() { note source "$source" "${include:-.}" >"$room/slips" 2>&1 8<&- 9<&- & }
tell_slips() { wait; cat "$room/slips" >&2 || true; }

# A build as a child: its text is written when it has ended, and then the notes.
build() {
  local program=$1 status=0 made made_state start
  shift
  make_room
  made=$(make_out)
  lock_out
  made_state=$(make_state)
  lock_state "$state"
  profiles >"$room/before"
  note out "$out"
  [ -z "$state" ] || note state "$source" "$out" "$state"
  seek_slips
  start=$(now)
  run_build "$program" "$@" || status=$?
  unmake_state "$made_state"
  tell_text "$status" || [ "$status" -gt 1 ] || status=7
  case $status in
    2 | 3) wait; [ -z "$made" ] || unmake_out "$made"; exit "$status" ;;
    8) tell_memory ;;
  esac
  tell_slips
  if [ "$status" -eq 13 ]; then tell_faults "$program"; exit 13; fi
  note unused "$source" "$out" "${include:-.}" "$room/text"
  note objects "$room/text"
  profiles >"$room/after"
  note summary "$room/text" "$room/before" "$room/after" $(($(now) - start))
  exit "$status"
}

# The program itself has no word for it.
tell_memory() { [ "${PAN_NOTES:-}" = off ] || say "out of memory, or a pattern takes more room than patterns have"; }

# Where a build changed nothing because too many files would have gone: the faults that took them away, by a build of the
# same source with the same options, but without the bound, into a folder of its own.
tell_faults() {
  [ "${PAN_NOTES:-}" = off ] || "$1" build ${options[@]+"${options[@]}"} -- "$source" "$room/shelf" >"$room/report" || true
}

# A list that the program will not take, as its folders would not lie below SOURCE.
tell_include() {
  case ":$include:" in
    *:/* | *:../* | *:..:* | */../* | */..:*) say "--include takes folders below SOURCE, joined by \`:\`, and not $include" ;;
  esac
}

# Watching: the notes come first, and the locks are held for as long as it runs.
watch() {
  make_out >/dev/null
  lock_out
  note out "$out"
  [ -z "$state" ] || note state "$source" "$out" "$state"
  note source "$source" "${include:-.}"
  export GLIBC_TUNABLES=${GLIBC_TUNABLES:-$("$tools/pan-program" --tunables)}
  run_over_state "$@"
}

# Runs the program over the file of rows, which is locked. Where that was made for it the script stays behind the program
# to take it away again, and hands signals on.
run_over_state() {
  local made_state status=0 child
  made_state=$(make_state)
  lock_state "$state"
  [ -n "$made_state" ] || exec "$@"
  "$@" <&0 &
  child=$!
  trap 'kill "$child" 2>/dev/null' TERM INT HUP
  while kill -0 "$child" 2>/dev/null; do
    status=0
    wait "$child" || status=$?
  done
  unmake_state "$made_state"
  exit "$status"
}

# Lines about one template that was given the name input.pan, with its own name.
name_input() {
  local line
  while IFS= read -r line; do echo "${line//input.pan/$1}"; done
}

# The layout of one template, `-` being standard input, below the room.
lay_out() {
  local program=$1 file=$2 status=0
  rm -rf "$room/from" "$room/to"
  mkdir "$room/from"
  cat -- "$file" >"$room/from/input.pan" || return 3
  "$program" format "$room/from" "$room/to" >"$room/text" 2>"$room/notes" || status=$?
  if [ "$status" -ne 0 ]; then grep -v '^files ' "$room/text" | name_input "$file" >&2 || true; fi
  name_input "$file" <"$room/notes" >&2
  return "$status"
}

# A file gets its layout at once, with the owner and the rights that it has. Where that cannot be written it stays as it is.
replace() {
  local file new=''
  file=$(readlink -f -- "$1")
  if new=$(mktemp "$(dirname -- "$file")/.format.XXXXXX") && cat "$room/to/input.pan" >"$new" && give_rights "$file" "$new" &&
    mv -f -- "$new" "$file"; then return; fi
  [ -z "$new" ] || rm -f -- "$new"
  echo "shelf fault $1" >&2
  return 4
}

# A file gets the owner, where this user may give it away, and the rights of another one.
give_rights() {
  chown --reference="$1" -- "$2" 2>/dev/null || true
  chmod --reference="$1" -- "$2"
}

format_file() {
  local program=$1 file=$2
  lay_out "$program" "$file" || return
  if [ "$file" = - ]; then
    if [ -z "$is_check" ]; then write "$room/to/input.pan"; return; fi
    file=$room/from/input.pan
  fi
  if cmp -s -- "$file" "$room/to/input.pan"; then return; fi
  if [ -n "$is_check" ]; then echo "differs $2"; return 1; fi
  replace "$file"
}

# The templates of a folder get their layout. A file that is put is nobody else's until it has the rights that it had.
format_folder() {
  local program=$1 status=0 owner rights name
  out=$2
  lock_out
  find -H "$out" -type f -name '*.pan' -printf '%U:%G %m %P\0' >"$room/rights"
  (umask 077; exec "$program" format -- "$out" "$out") || status=$?
  while IFS=' ' read -r -d '' owner rights name; do
    chown "$owner" -- "$out/$name" 2>/dev/null || true
    chmod "$rights" -- "$out/$name"
  done <"$room/rights"
  return "$status"
}

# The templates of a folder that have another layout.
check_folder() {
  local program=$1 folder=${2%/} status=0 name
  "$program" format -- "$folder" "$room/shelf" >"$room/text" || status=$?
  [ "$status" -le 1 ] || { cat "$room/text"; return "$status"; }
  grep -v '^files ' "$room/text" || true
  while IFS= read -r name; do
    cmp -s -- "$folder/$name" "$room/shelf/$name" || { echo "differs $folder/$name"; status=1; }
  done < <(cd "$room/shelf" && find . -name '*.pan' -printf '%P\n' | LC_ALL=C sort)
  rm -rf "$room/shelf"
  return "$status"
}

# Files and folders one after the other; the status is the highest.
format_places() {
  local program=$1 place status=0 one
  shift
  make_room
  for place in "$@"; do
    one=0
    case $place in -?*) place=./$place ;; esac
    if [ ! -d "$place" ]; then format_file "$program" "$place" || one=$?
    elif [ -n "$is_check" ]; then check_folder "$program" "$place" || one=$?
    else format_folder "$program" "$place" || one=$?; fi
    [ "$one" -le "$status" ] || status=$one
  done
  exit "$status"
}

# The words of a layout: two folders are the program's, and any other places the script's.
is_check=''
format() {
  local program=$1 word has_ended='' places=()
  shift 2
  for word in "$@"; do
    case $has_ended$word in
      --) has_ended=1 ;;
      --check) is_check=1 ;;
      -?*) usage ;;
      *) places+=("$word") ;;
    esac
  done
  case ${#places[@]}$is_check in
    0*) usage ;;
    2)
      if [ "${places[0]}" -ef "${places[1]}" ]; then
        format_places "$program" "${places[0]}"
      elif [ ! -f "${places[0]}" ] && [ ! -f "${places[1]}" ] && [ "${places[0]}" != - ]; then
        source=${places[0]} out=${places[1]}
        make_out >/dev/null
        lock_out
        exec "$program" format -- "${places[@]}"
      fi
      ;;
  esac
  format_places "$program" "${places[@]}"
}

# What a watcher answers to one line about a site that is compiled and not published, as the text of the room. Where it
# cannot, what it said last is told.
ask() {
  local program=$1 line=$2 status=0
  make_room
  printf 'scan\nturn 1000000\n%s\nquit\n' "$line" >"$room/lines"
  "$program" watch ${options[@]+"${options[@]}"} -- "$source" "$room/out" <"$room/lines" >"$room/text" || status=$?
  if grep -qx 'source fault' "$room/text"; then status=3; fi
  case $status in
    0) return ;;
    8) tell_memory ;;
    *) tail -n 1 "$room/text" >&2 || true ;;
  esac
  exit "$status"
}

# The names behind a word in what is answered to a line.
names_of() {
  ask "$1" "$2"
  if grep -qx 'bad line' "$room/text"; then say "$2: no file name below SOURCE"; exit 2; fi
  sed -n "s/^$3 //p" "$room/text" >"$room/names"
  write "$room/names"
}

# The objects that an edit of a file can change.
impact() {
  local program=$1 file=$2
  names_of "$program" "impact $file" touches
  if [ -s "$room/names" ] || [ -e "$source/$file" ] || [ "${PAN_NOTES:-}" = off ]; then return; fi
  say "$file: there is no such file below $source, and no object looks for it"
}

# Whether a word has the form of an absolute path: `/`, or a term behind each `/`.
is_path() {
  local paths='^(/|(/([^/{}]+|\{[^{}]*\}))+)$'
  [[ $1 =~ $paths ]]
}

# What stands at a path, as `/hardware/cpus` or `/disks/0`, in a line of compact JSON; nothing where nothing does.
value_at() {
  PAN_PATH=$1 LC_ALL=C awk '
    # a path in which keys stand for the terms `{text}`: but for letters and digits that are not leading, each byte is `_`
    # and two hexadecimal digits there
    function with_keys(path,   i, byte, open, made) {
      for (i = 0; i < 256; i++) hexadecimal[sprintf("%c", i)] = sprintf("%02x", i)
      for (i = 1; i <= length(path); i++) {
        byte = substr(path, i, 1)
        if (byte == "{") { open = i; continue }
        if (byte == "}") { if (i == open + 1) made = made "_"; open = 0; continue }
        if (open && (byte !~ /[A-Za-z0-9]/ || (i == open + 1 && byte ~ /[0-9]/))) byte = "_" hexadecimal[byte]
        made = made byte
      }
      return made
    }
    function char(i) { return substr(text, i, 1) }
    function behind_text(i) { for (i++; char(i) != "\""; i++) if (char(i) == "\\") i++; return i + 1 }
    # the place behind the value at a place
    function behind_value(i,   open) {
      if (char(i) == "\"") return behind_text(i)
      if (char(i) !~ /[[{]/) { while (i <= length(text) && char(i) !~ /[],}]/) i++; return i }
      for (open = 0; ; i++) {
        if (char(i) == "\"") i = behind_text(i)
        if (char(i) ~ /[[{]/) open++
        if (char(i) ~ /[]}]/ && --open == 0) return i + 1
      }
    }
    # the place of a child of the value at a place; 0 where there is none
    function child_at(i, name,   close_sign, is_dict, number, key) {
      is_dict = char(i) == "{"
      if (!is_dict && char(i) != "[") return 0
      for (i++; char(i) !~ /[]}]/; i = behind_value(i) + (char(behind_value(i)) == ",")) {
        key = number++
        if (is_dict) { close_sign = behind_text(i); key = substr(text, i + 1, close_sign - i - 2); i = close_sign + 1 }
        if (key "" == name "") return i
      }
      return 0
    }
    {
      text = $0
      place = 1
      count = split(with_keys(ENVIRON["PAN_PATH"]), names, "/")
      for (n = 1; n <= count && place; n++) if (names[n] != "") place = child_at(place, names[n])
      if (place) print substr(text, place, behind_value(place) - place)
    }'
}

# The profile of an object, or what stands at a path of it.
show() {
  local program=$1 object=$2 at=$3
  if ! is_path "${at:-/}"; then say "$object $at: no path that begins with \`/\`"; exit 2; fi
  ask "$program" "show $object"
  if grep -qx 'bad line' "$room/text" || grep -qx 'no object' "$room/text"; then say "$object: no object"; exit 2; fi
  if grep '^fault ' "$room/text" >"$room/own"; then tell_fault; exit 1; fi
  sed -n 's/^profile //p' "$room/text" | value_at "$at" >"$room/value"
  if [ ! -s "$room/value" ]; then say "$object: nothing at $at"; exit 1; fi
  write "$room/value"
}

# The fault of an object that was asked for a value.
tell_fault() { cat "$room/own" >&2 || true; }

# Where the values at and below a path of an object were set last.
blame() {
  local program=$1 object=$2 at=$3
  ask "$program" "blame $object $at"
  if grep -qx 'bad line' "$room/text"; then say "$object $at: no object's name and a path that begins with \`/\`"; exit 2; fi
  if grep -qx 'no object' "$room/text"; then say "$object: no object"; exit 2; fi
  if grep '^fault ' "$room/text" >"$room/own"; then tell_fault; exit 1; fi
  if grep -qx 'no path' "$room/text"; then say "$object: nothing at $at"; exit 1; fi
  grep '^/' "$room/text" >"$room/setters" || true
  write "$room/setters"
}

# Lines on faults with the names of files as they are from here.
placed() {
  local line
  if [ "$form" != gcc ]; then cat; return; fi
  while IFS= read -r line; do printf '%s/%s\n' "${source%/}" "$line"; done
}

# Of the text of a build what is told of the fault of one object, and the note on it.
of_object() { awk -v name="$1" '$1 == "fault" && $2 == name' "$room/text"; }
note_on() {
  awk -v alone="  (object $1)" -v first="  (object $1, and " '
    BEGIN { RS = ""; ORS = "\n\n" } index($0, alone) || index($0, first)' "$room/notes"
}

# Of lines as compilers print them the errors of one object, each with the notes behind it.
lines_on() {
  awk -v mark="(object $1)" '/: error: / { mine = index($0, mark) > 0 } mine'
}

# A build that is not published, with notes of a form: its text and its notes are below the room.
try_build() {
  PAN_NOTES=$2 "$1" build ${options[@]+"${options[@]}"} -- "$source" "$room/out" >"$room/text" 2>"$room/notes"
}

# The fault of one object for other programs, or as the build tells it.
tell_own() {
  case $form in
    gcc) lines_on "$only" <"$room/notes" | placed ;;
    json) grep -F "{\"object\":\"$only\"," "$room/notes" ;;
    *) cat "$room/own" ;;
  esac
}

# The note on the fault of one object; where it stands with another object's, the lines that compilers would print.
note_own() {
  if [ -n "$form" ] || [ "${PAN_NOTES:-}" = off ]; then return; fi
  note_on "$only" >"$room/note"
  if [ ! -s "$room/note" ]; then
    try_build "$1" gcc || true
    lines_on "$only" <"$room/notes" >"$room/note"
  fi
  cat "$room/note" >&2 || true
}

check_object() {
  if ! grep -qxF "run $only" "$room/text"; then say "$only: no object"; exit 2; fi
  of_object "$only" >"$room/own"
  [ -s "$room/own" ] || exit 0
  tell_own >"$room/told"
  write "$room/told"
  note_own "$1"
  exit 1
}

# The faults of a build that is not published: all of them, or those of one object.
check() {
  local program=$1 status=0
  make_room
  seek_slips
  try_build "$program" "${form:-${PAN_NOTES:-}}" || status=$?
  tell_slips
  if [ "$status" -eq 8 ]; then tell_memory; fi
  if [ "$status" -gt 1 ]; then cat "$room/notes" >&2 || true; write "$room/text"; exit "$status"; fi
  note objects "$room/text"
  [ -z "$only" ] || check_object "$program"
  if [ -n "$form" ]; then placed <"$room/notes" >"$room/told"; else grep -v '^run ' "$room/text" >"$room/told"; fi
  write "$room/told"
  [ -n "$form" ] || cat "$room/notes" >&2 || true
  exit "$status"
}

# A number of a header's row, so many digits behind others.
number_in() { echo $((16#${1:$2:16})); }

# The include directories of a header's row, as --include has them: a count, and of each its length and its bytes.
directories_in() {
  local row=$1 at=58 count length name list=''
  for ((count = 16#${row:50:8}; count > 0; count--)); do
    length=$((2 * 16#${row:at:8}))
    name=$(sed 's/../\\x&/g' <<<"${row:at + 8:length}")
    name=$(printf '%b' "$name")
    list+=:${name:-.}
    at=$((at + 8 + length))
  done
  echo "${list#:}"
}

# What a file of rows keeps. A copy is read, so that neither the file nor its log is touched.
tell_state() {
  local file=$1 rows='' all objects files header
  if ! command -v sqlite3 >/dev/null; then say "pan state wants sqlite3, which is not on the path"; exit 127; fi
  if [ ! -f "$file" ]; then say "$file: no such file"; exit 5; fi
  make_room
  lock_state "$file"
  cp -- "$file" "$room/rows"
  [ ! -f "$file-wal" ] || cp -- "$file-wal" "$room/rows-wal"
  if [ -s "$room/rows" ] || [ -s "$room/rows-wal" ]; then
    rows=$(sqlite3 -separator ' ' "$room/rows" "select count(*), count(nullif(name like 'o/%', 0)),
      count(nullif(name like 'f/%', 0)), max(iif(name = 'h', hex(bytes), '')) from rows" 2>/dev/null) ||
      { say "$file: no file of rows"; exit 12; }
  fi
  read -r all objects files header <<<"$rows"
  if [ "${all:-0}" -eq 0 ]; then echo 'objects 0 files 0'; return; fi
  if [ "${#header}" -lt 58 ]; then say "$file: rows without a header"; exit 12; fi
  echo "objects $objects files $files"
  printf -- '--include %q\n' "$(directories_in "$header")"
  echo "--max-iteration $(number_in "$header" 18) --max-recursion $(number_in "$header" 34)"
  echo "format $((16#${header:0:2})), next number $(number_in "$header" 2), $(stat -Lc %s -- "$file") bytes"
}

usage() { echo "usage fault"; help >&2; exit 2; }

# --help, --quiet, --format and --only stand anywhere before `--`.
words=() is_quiet='' form='' only='' has_only=''
while [ $# -gt 0 ]; do
  case $1 in
    --help) help; exit 0 ;;
    --try) words+=("$@"); break ;;
    --quiet) is_quiet=1 ;;
    --format | --only) [ $# -gt 1 ] || usage; if [ "$1" = --only ]; then has_only=1 only=$2; else form=$2; fi; shift ;;
    --format=*) form=${1#--format=} ;;
    --only=*) has_only=1 only=${1#--only=} ;;
    --) words+=("$@"); break ;;
    *) words+=("$1") ;;
  esac
  shift
done
set -- ${words[@]+"${words[@]}"}
if [ -n "$is_quiet" ]; then export PAN_NOTES=off; fi
case $form in '' | gcc | json) ;; *) usage ;; esac
if [ -n "$has_only" ] && [ -z "$only" ]; then usage; fi

case ${1:-} in
  --version) version; exit 0 ;;
  --prove | --release | --try) exec "$tools/pan-prove" "$@" ;;
  state)
    if [ $# -ne 2 ] || [ -z "$2" ] || [ -n "$form$only" ]; then usage; fi
    tell_state "$2"
    exit
    ;;
esac
if ! has_mode "$@"; then usage; fi
program=$("$tools/pan-program")
case ${1:-} in format) [ -z "$form$only" ] || usage; format "$program" "$@" ;; esac
read_words "$@"
case $mode in build) [ -z "$only" ] || usage ;; check) ;; *) [ -z "$form$only" ] || usage ;; esac
[ "${PAN_NOTES:-}" = off ] || tell_include
case $mode in
  check) want_places 2 2; check "$program" ;;
  show) want_places 3 4; show "$program" "$out" "$path"; exit ;;
  blame) want_places 3 4; blame "$program" "$out" "${path:-/}"; exit ;;
  impact) want_places 3 3; impact "$program" "$out"; exit ;;
  unused) want_places 2 2; names_of "$program" unused unused; exit ;;
  build | watch) if [ -n "$out" ]; then "$mode" "$program" "$@"; fi ;;
esac
exec "$program" "$@"
