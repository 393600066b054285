# Which program there is, and how it is made. bin/vbm and tools/dist read this; they set `root`, the top of the repository.

built=$root/crates/vbm/out/vbm

declare -A stands_on=()
crates=() parts=()

# Adds a crate of the repository to `crates`, behind those that it stands on.
add_crate() {
  local below
  [[ -v stands_on[$1] && " ${crates[*]} " != *" $1 "* ]] || return 0
  for below in ${stands_on[$1]}; do
    add_crate "$below"
  done
  crates+=("$1")
}

# Sets `crates`, all that the program is made of, its own last; and `parts`, the folders of their sources.
find_crates() {
  local line name crate part
  while IFS= read -r line; do
    if [[ $line != \#* && $line == *:* ]]; then
      name=${line%%:*}
      stands_on[${name%% *}]=${line#*:}
    fi
  done <"$root/crates.txt"
  add_crate vbm
  for crate in "${crates[@]}"; do
    for part in src specs proofs; do
      [ ! -d "$root/crates/$crate/$part" ] || parts+=("crates/$crate/$part")
    done
  done
}

# Writes the checksum of all that goes into the program: its crates and what each stands on, their sources, definitions and proofs.
sum_sources() (
  cd "$root" || exit 1
  {
    for crate in "${crates[@]}"; do
      printf '%s:%s\n' "$crate" "${stands_on[$crate]}"
    done
    find "${parts[@]}" -type f \( -name '*.rt' -o -name '*.antt' \) -print0 | LC_ALL=C sort -z | xargs -0 sha256sum
  } | sha256sum
)

# Sets `sources` to that checksum. It is kept, and taken from there while no file or folder has changed since.
find_sources() {
  local kept=$root/out/sources now of=
  [ ${#crates[@]} -ne 0 ] || find_crates
  if { read -r sources && read -r of; } 2>/dev/null <"$kept" && [ "$of" = "${parts[*]}" ] &&
    [ -z "$(cd "$root" && find crates.txt "${parts[@]}" -cnewer "$kept" -print -quit)" ]; then
    return
  fi
  printf -v now '%(%s)T' -1
  sources=$(sum_sources)
  sources=${sources%% *}
  # Dated back, so that a change while the sum was made is seen.
  if mkdir -p "$root/out" && printf '%s\n%s\n' "$sources" "${parts[*]}" >"$kept.$$" && touch -d "@$((now - 1))" "$kept.$$"; then
    mv -f "$kept.$$" "$kept"
  fi 2>/dev/null
}

# Whether dist/ has the program of these sources, for this machine.
is_dist_current() {
  local of
  [ "$OSTYPE $HOSTTYPE" = "linux-gnu x86_64" ] && [ -x "$root/dist/vbm" ] && read -r of 2>/dev/null <"$root/dist/sources" &&
    find_sources && [ "$of" = "$sources" ]
}

# Whether the program that was built here is not older than its sources.
is_built() {
  [ ${#crates[@]} -ne 0 ] || find_crates
  [ -x "$built" ] && [ -z "$(cd "$root" && find crates.txt "${parts[@]}" -newer "$built" -print -quit)" ]
}

# While this shell lives, writes over and over in one line which crate is being proved.
show_progress() {
  local start=$SECONDS name at number
  while kill -0 $$ 2>/dev/null; do
    name=$(grep -o 'chose --jobs [0-9]* for [a-z0-9_]*' "$1" 2>/dev/null | tail -n 1)
    name=${name##* }
    at="reading the sources"
    for number in "${!crates[@]}"; do
      [ "${crates[number]}" != "$name" ] || at="proving $name, crate $((number + 1)) of ${#crates[@]}"
    done
    printf '\r\033[Kvbm: %s, %d minutes so far' "$at" $(((SECONDS - start) / 60)) >&2
    sleep 1
  done
}

# Proves and builds the program, or ends this shell with status 9.
build() {
  local log=$root/out/build.log progress=
  [ ${#crates[@]} -ne 0 ] || find_crates
  if ! command -v rt >/dev/null; then
    echo "vbm: the program has to be proved and built, and there is no command rt" >&2
    exit 9
  fi
  echo "vbm: proving and building the program; from nothing that may take an hour (what is said of it: $log)" >&2
  mkdir -p "$root/out" && rm -f "$built" && : >"$log" && : >"$root/out/started" || exit 9
  if [ -t 2 ]; then
    (trap - INT; show_progress "$log") &
    progress=$!
  fi
  (cd "$root/crates/vbm" && rt run) >"$log" 2>&1 </dev/null
  if [ -n "$progress" ]; then
    kill "$progress"
    { wait "$progress"; } 2>/dev/null
    printf '\r\033[K' >&2
  fi
  if [ ! -x "$built" ]; then
    tail -n 20 "$log" >&2
    echo "vbm: the program was not built; all that was said of it: $log" >&2
    exit 9
  fi
  # What was changed meanwhile is newer than the program.
  touch -r "$root/out/started" "$built"
  rt version >"$root/out/kit"
}

# Sets `program`, which is built where there is none of these sources.
find_program() {
  program=$root/dist/vbm
  if [ "${VBM_PROVE-}" = 1 ] || ! is_dist_current; then
    program=$built
    is_built || build
  fi
}

# Writes the line of the kit by which the program was proved, or why there is none.
kit_line() {
  if [ "${VBM_PROVE-}" != 1 ] && is_dist_current; then
    cat "$root/dist/kit"
  elif ! is_built; then
    echo "not proved and built yet"
  elif [ "$root/out/kit" -nt "$built" ]; then
    cat "$root/out/kit"
  elif command -v rt >/dev/null; then
    rt version
  else
    echo "proved and built by a kit that is not here"
  fi
}
