# What the scripts of bin/ share. Each of them sets `root`, the top of the repository, and then reads this file.

out=$root/crates/fshell/out
program=$out/fshell
release=$root/release

fail() {
  echo "fshell: $1" >&2
  exit 70
}

# The program's crates by crates.txt, each after those that it uses: their `lines` there, their `names`, or the `folders` from
# the top that have sources of them, or would have.
in_order() {
  awk -v wanted="$1" '
    { sub(/#.*/, ""); $1 = $1 }
    /:/ { split($0, parts, ":"); split(parts[1], name, " "); line[name[1]] = $0; uses[name[1]] = parts[2] }
    function visit(crate,   used, count, i) {
      if (!(crate in uses) || seen[crate]++) return
      count = split(uses[crate], used, " ")
      for (i = 1; i <= count; i++) visit(used[i])
      if (wanted == "lines") print line[crate]
      else if (wanted == "names") print crate
      else print "crates/" crate "/src\ncrates/" crate "/specs\ncrates/" crate "/proofs"
    }
    END { visit("fshell") }' "$root/crates.txt"
}

# A source of the program that is newer than it, if there is one. Where the program is the released one, the time counts at
# which the source was last changed in any way, since its own time may have been kept or set.
newer_source() {
  newer=-newer
  ! cmp -s -- "$program" "$release/fshell" || newer=-newercm
  (cd -- "$root" && find $(in_order folders) crates.txt HANDLES "$newer" "$program" -print 2>/dev/null | head -n 1)
}

# The note for bin/fshell: the names of what the program is made of (the files and folders of its src and specs, the folders of its
# crates and of their proofs, crates.txt, HANDLES and the program), each ended by a zero byte. Its time is a second before the
# look, so that no change at that time is lost. A change within a folder of proofs is seen at the next look: it makes no other
# program, and the one that stands was proved.
begin_note() {
  noted=$out/looked-at.$$
  touch -d '1 second ago' -- "$noted.time" 2>/dev/null
}

put_note() {
  if [ -f "$noted.time" ] && [ -x "$program" ]; then
    (cd -- "$root" && {
      in_order folders | grep -v '/proofs$' | tr '\n' '\0' | xargs -0 sh -c 'find "$@" -print0 2>/dev/null' find
      in_order folders | grep '/proofs$' | while IFS= read -r name; do [ ! -d "$name" ] || printf '%s\0' "$name"; done
      in_order names | sed 's|.*|crates/&|' | tr '\n' '\0'
      printf '%s\0' crates.txt HANDLES crates/fshell/out/fshell
    } >"$noted") 2>/dev/null && touch -r "$noted.time" -- "$noted" && mv -f -- "$noted" "$out/looked-at"
  fi
  drop_note
}

drop_note() {
  rm -f -- "$noted" "$noted.time" 2>/dev/null
}

# One sum of all that the program is made of: the lines of crates.txt that speak of its crates, HANDLES, the kit's line
# as release/KIT has it, and each file of its crates by its path.
sum_of_sources() {
  (
    cd -- "$root" || exit
    export LC_ALL=C
    {
      in_order lines | sort
      sha256sum HANDLES release/KIT
      find $(in_order folders) ! -type d -print0 | sort -z | xargs -0 sha256sum --
    } 2>/dev/null | sha256sum | cut -c 1-64
  )
}

# the sum of the sources from which the released program was built
released_sum() {
  grep -v '^#' -- "$release/SOURCES.sha256" 2>/dev/null | cut -c 1-64
}

is_of_these_sources() {
  [ -f "$release/KIT" ] && [ -n "$(released_sum)" ] && [ "$(sum_of_sources)" = "$(released_sum)" ]
}

# whether the kit with this line built the released program; another one may build another program of the same sources
is_by_kit() {
  [ "$(cat -- "$release/KIT" 2>/dev/null)" = "$1" ]
}

# whether a file has the bytes of the released program, by the sum that stands beside it
is_whole() {
  [ -n "$(cut -c 1-64 "$release/fshell.sha256" 2>/dev/null)" ] &&
    [ "$(sha256sum <"$1" | cut -c 1-64)" = "$(cut -c 1-64 "$release/fshell.sha256")" ]
}

# whether this machine can start a program, whatever it ends with
can_start() {
  "$1" >/dev/null 2>&1 </dev/null
  [ "$?" -lt 126 ]
}

# puts a file where the program stands, whole or not at all; its time is that of the second file
put_program() {
  mkdir -p -- "$out" 2>/dev/null && cp -- "$1" "$out/new.$$" 2>/dev/null && chmod +x "$out/new.$$" &&
    touch -r "$2" -- "$out/new.$$" && mv -f -- "$out/new.$$" "$program" && return 0
  rm -f -- "$out/new.$$" 2>/dev/null
  return 1
}

find_rt() {
  rt=$(command -v rt) || rt=/opt/rattle/bin/rt
  [ -x "$rt" ]
}

# whether the kit keeps what it proved for later runs: then rt ci takes --anew. Another one proves all in each run
keeps_proofs() {
  "$rt" help 2>&1 </dev/null | awk '/^  rt [a-z]/ { of_ci = /^  rt ci/ } of_ci && /--anew/ { found = 1 } END { exit !found }'
}

# says how many crates are proved: on a terminal in one line that is written over, else in a line a crate
progress() {
  if [ -t 2 ]; then
    printf '\r\033[Kfshell: %s of %s crates are proved, the last one %s' "$2" "$3" "$1" >&2
  else
    echo "fshell: $1 is proved ($2 of $3)" >&2
  fi
}

# writes the lines of a run of rt ci into a log, and says how far it is
follow() {
  number=0
  while IFS= read -r line; do
    printf '%s\n' "$line" >>"$1"
    case $line in
    "rt: "*" proved" | "rt: "*" is kept: "*)
      name=${line#rt: }
      number=$((number + 1))
      progress "${name%% *}" "$number" "$2"
      ;;
    esac
  done
  [ ! -t 2 ] || [ "$number" -eq 0 ] || echo >&2
}

# Proves the program's crates and builds the program, on a copy of its sources, as many crates side by side as there are
# processors and memory, with the word for rt ci that is given, if any. What is built becomes the program.
build() {
  find_rt || fail "the program must be built, and rt, which builds it, isn't found"
  [ -w "$root/crates/fshell" ] && { [ ! -e "$out" ] || [ -w "$out" ]; } ||
    fail "the program must be built, and $root/crates/fshell can't be written"
  rm -f -- "$program" 2>/dev/null
  [ ! -e "$program" ] || fail "the program must be built anew, and $program can't be removed"
  copy=$(mktemp -d) || exit 70
  trap 'rm -rf -- "$copy"' EXIT
  trap 'exit 70' HUP INT TERM
  : >"$copy/begun"
  mkdir "$copy/top" "$copy/top/.git"
  in_order lines >"$copy/top/crates.txt"
  cp -- "$root/HANDLES" "$copy/top"
  for crate in $(in_order names); do
    mkdir -p "$copy/top/crates/$crate"
    for part in src specs proofs args stdin stdout status data; do
      [ ! -e "$root/crates/$crate/$part" ] || cp -R -- "$root/crates/$crate/$part" "$copy/top/crates/$crate"
    done
  done
  echo "fshell: proving and building the program, which takes 40 minutes on four processors where nothing is kept of an earlier run" >&2
  { (cd -- "$copy/top" && "$rt" ci "$@") 2>&1 </dev/null; echo "$?" >"$copy/status"; } |
    follow "$copy/log" "$(in_order names | wc -l)"
  built=$copy/top/crates/fshell/out/fshell
  # a source that was changed meanwhile is newer
  if [ "$(cat "$copy/status")" != 0 ] || [ ! -x "$built" ] || ! put_program "$built" "$copy/begun"; then
    log=$(mktemp) && cp -- "$copy/log" "$log"
    tail -n 20 -- "$log" >&2
    fail "the program wasn't built; all that rt wrote is in $log"
  fi
  rm -rf -- "$copy"
  trap - EXIT HUP INT TERM
}
