# shellcheck shell=bash
# What ./certify and tools/library share, to be sourced: which crates a crate stands on, whether what was proved still stands,
# a run of `rt` under a lock that says how far it is, and what starts a program on this machine. Each but the last needs $who, the
# name that its sentences begin with.
# Paths are relative to a base folder, which has crates.txt and crates/; the sums are of the files' contents.
#
# What rt makes stands in crates/NAME/out, and each `rt ci` clears that: so who keeps a program or the library copies it into target/.
# .ci/run names the checkout in ZEGRAFULT_GATE for its steps: `rt ci` has passed just now over these very files, and what it left is taken.

# The crate NAME and those of crates.txt that it stands on, one to a line.
reach() { # BASE NAME
  awk -v want="$2" '
    { sub(/#.*/, ""); i = index($0, ":"); if (i) { split(substr($0, 1, i - 1), head, " "); deps[head[1]] = substr($0, i + 1) } }
    function visit(n, a, m, k) { if (!(n in deps) || seen[n]) return; seen[n] = 1; m = split(deps[n], a, " "); for (k = 1; k <= m; k++) visit(a[k]); print n }
    END { visit(want) }' "$1/crates.txt"
}

# The libraries that the line of the crate NAME lists.
uses() { # BASE NAME
  awk -v want="$2" '{ sub(/#.*/, ""); i = index($0, ":"); split(substr($0, 1, i - 1), head, " "); if (i && head[1] == want) print substr($0, i + 1) }' "$1/crates.txt"
}

# One sum of all that was read by a proof: PATHS, the edits of must-fail/ and edits/ and rt's own out/ left out.
sum_of() { # BASE PATH..
  local base=$1
  shift
  (cd "$base" && find -H "$@" \( -name must-fail -o -name edits -o -name out \) -prune -o -type f -exec sha256sum {} + | LC_ALL=C sort | sha256sum)
}

# Whether what FOLDER keeps was proved of the sources as they stand: none was touched since the proof began, or their contents
# are the same all the same (a copy, another checkout of the same commit). FOLDER has `paths`, `sum`, and `began`, whose time counts.
stands() { # BASE FOLDER
  local paths newer now
  [ -f "$2/began" ] && [ -r "$2/sum" ] && mapfile -t paths <"$2/paths" || return 1
  printf -v now '%(%s)T' -1
  newer=$(cd "$1" && find "${paths[@]}" \( -name must-fail -o -name edits -o -name out \) -prune -o -cnewer "$2/began" -print -quit 2>&1) && [ -z "$newer" ] && return 0
  [ "$(sum_of "$1" "${paths[@]}" 2>/dev/null)" = "$(<"$2/sum")" ] || return 1
  touch -d "@$((now - 1))" "$2/began" 2>/dev/null
  return 0
}

# Says which crate is being proved, by what rt says in LOG, until it is ended.
watch_proofs() { # LOG CRATES
  local log=$1 crates=$2 line last=''
  while kill -0 $$ 2>/dev/null; do
    line=$(awk -v crates="$crates" '/^rt: chose --jobs [0-9]+ for / { name = $NF } /^logic=proved / { ready++; name = "" }
      END { printf "%d of %d crates proved%s", ready, crates, name == "" ? "" : "; proving " name }' "$log" 2>/dev/null)
    [ "$line" = "$last" ] || [ -z "$line" ] || echo "${who:?}: $line" >&2
    last=$line
    sleep 0.5
  done
}

# Takes the lock of BASE/target, which lasts until the script ends: one proof at a time.
take_lock() { # BASE
  exec 9<"$1/target" || return 1
  command -v flock >/dev/null || return 0
  flock -n 9 && return 0
  echo "$who: another run is proving the same checkout; waiting for it" >&2
  flock 9
}

# Whether `rt ci` left the libraries below the crate NAME, of which no `rt check` has made one since or before: those have a stamp.
left_by_ci() { # BASE NAME
  local name
  [ "${ZEGRAFULT_GATE:-}" = "$1" ] || return 1
  for name in $(reach "$1" "$2"); do
    [ "$name" = "$2" ] || { [ -d "$1/crates/$name/out/rlib/$name.rlib" ] && [ ! -e "$1/crates/$name/out/rlib/stamp" ]; } || return 1
  done
}

# Proves and builds the program NAME, which stays as crates/NAME/out/NAME: `rt run` builds it and runs it once, on no input.
build_program_of() { # BASE NAME
  if [ "${ZEGRAFULT_GATE:-}" = "$1" ] && [ -x "$1/crates/$2/out/$2" ]; then
    echo "as rt ci proved, built and ran it:"
    sed -n "s/^[0-9]* //; /^== $2\$/,/^rt: $2 proved/p; /^rt: $2 is kept/p" "$1/target/ci.log" 2>/dev/null
    return 0
  fi
  (cd "$1/crates/$2" && rt run </dev/null)
}

# Proves the crate NAME anew over the libraries as `rt ci` proved them, and builds it in out/, in the words that rt uses: a static library
# to libNAME.a, a program to NAME.o, linked to NAME. No command of rt does that: `rt lib` and `rt run` prove what `rt check` has not kept.
build_over_ci() { # BASE NAME
  local kit name words=() root=src/lib.rt to=lib$2.a
  kit=$(readlink -f -- "$(command -v rt)") && kit=${kit%/bin/*} || return 1
  if [ -e "$1/crates/$2/src/main.rt" ]; then root=src/main.rt to=$2.o; else words=(--crate-type staticlib); fi
  for name in std $(uses "$1" "$2"); do
    if [ -d "$1/crates/$name" ]; then words+=(--extern "$name=../$name/out/rlib/$name.rlib"); else words+=(--extern "$name=$kit/rlibs/$name.rlib"); fi
  done
  for name in $(reach "$1" "$2"); do [ "$name" = "$2" ] || words+=(-L "dependency=../$name/out/rlib"); done
  echo "rt: chose --jobs 2 for $2"
  (
    cd "$1/crates/$2" && mkdir -p out && "$kit/bin/rattle" build --crate-name "$2" "$root" "${words[@]}" -L "dependency=$kit/rlibs" --jobs 2 --links "$2=" \
      --antt-project "$kit/rattle/logic/antt-project.json" --logic-built "$kit/logic_built" --toolchain "$kit/toolchain" --backend llvm -o "out/$to" || exit
    [ "$root" = src/lib.rt ] || "$kit/bin/rattle-link" --target x86_64-unknown-linux-gnu --toolchain "$kit/toolchain" -o "out/$2" "out/$to" \
      "$kit/c/libos_c.a" "$kit/c/liblibc_c.a"
  )
}

# Proves and builds the static library NAME, which stays as crates/NAME/out/libNAME.a.
build_library_of() { # BASE NAME
  if left_by_ci "$1" "$2"; then build_over_ci "$1" "$2"; else (cd "$1/crates/$2" && rt lib); fi
}

# Runs COMMAND, which proves and builds the crate NAME in BASE, with what it writes in LOG, and leaves in FOLDER what `stands` needs once
# all of it succeeded. `began` is a second early, so that no edit falls between two ticks of the clock.
prove() { # BASE FOLDER LOG NAME COMMAND..
  local base=$1 folder=$2 log=$3 name=$4 now names paths status watcher sum
  shift 4
  mapfile -t names < <(reach "$base" "$name")
  rm -f "$folder/began" "$folder/sum"
  printf -v now '%(%s)T' -1
  touch -d "@$((now - 1))" "$folder/new" || return 1
  printf '%s\n' crates.txt "${names[@]/#/crates/}" >"$folder/paths"
  mapfile -t paths <"$folder/paths"
  sum=$(sum_of "$base" "${paths[@]}")
  : >"$log"
  watch_proofs "$log" "${#names[@]}" >/dev/null 9<&- &
  watcher=$!
  "$@" >"$log" 2>&1
  status=$?
  kill "$watcher" 2>/dev/null
  wait "$watcher" 2>/dev/null
  [ "$status" -eq 0 ] || return "$status"
  echo "$sum" >"$folder/sum" && rt version >"$folder/kit" 2>/dev/null
  echo "$who: ${#names[@]} of ${#names[@]} crates proved" >&2
}

# The words that start PROGRAM here, in `by`: none where the machine runs it itself; where the program is for x86-64 and the machine
# is another one, the emulator of a kit that has one (today's has none).
starter() { # PROGRAM
  local kit=${RATTLE_HOME:-}
  by=()
  [ "$HOSTTYPE" != x86_64 ] && [ "$(head -c 4 -- "$1" 2>/dev/null)" = $'\177ELF' ] || return 0
  [ -n "$kit" ] || { kit=$(readlink -f -- "$(command -v rt)") && kit=${kit%/bin/rt}; } || return 1
  kit=$kit/on/$HOSTTYPE/toolchain
  [ -x "$kit/bin/qemu-x86_64" ] || return 1
  by=("$kit/bin/qemu-x86_64" "$kit/lib/ld-linux-x86-64.so.2" --library-path "$kit/lib")
}
