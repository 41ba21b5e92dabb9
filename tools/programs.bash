# What the launcher and the tools know of the programs: what each is made from, and which of them runs. A script reads this file
# after it has set `top`, the folder of the repository. It needs bash and the GNU coreutils.

# The kits that prove and build the program, by what `rt version` prints. Each writes other bytes, so PROGRAM.made names the one that made PROGRAM.
kits=('rattle-kit-13f logic dac8208d650f15bf' 'rattle-kit-13b logic dac8208d650f15bf')

proved=$top/bin/tydi              # comes with the repository, with what it was made from in tydi.made
built=$top/crates/tydi/out/tydi   # proved and built here, by tools/build or `rt ci`
tried=$top/crates/tydi/out/tried  # built here without proof, by tools/try
to_build="$top/tools/build proves and builds one in an hour or more, $top/tools/try builds one without proof in some minutes"

# source_folders: sets `folders` to the src/, specs/ and proofs/ of each crate that the program stands on, as crates.txt lists them
source_folders() {
  local name libraries part wanted=(tydi)
  declare -A listed=()
  while IFS=: read -r name libraries; do
    name=${name%% *}
    [ -z "$name" ] || listed[$name]=$libraries
  done <"$top/crates.txt"
  folders=()
  while [ "${#wanted[@]}" -gt 0 ]; do
    name=${wanted[-1]}
    unset 'wanted[-1]'
    [ -n "${listed[$name]+listed}" ] || continue
    wanted+=(${listed[$name]})
    unset "listed[$name]"
    for part in src specs proofs; do
      [ ! -d "$top/crates/$name/$part" ] || folders+=("crates/$name/$part")
    done
  done
}

# sources: sets `files` to the sources by their names in the repository: HANDLES, crates.txt, and each file in a source folder, but
# none with a name that begins with a point
sources() {
  local folder file
  source_folders
  shopt -s globstar nullglob
  shopt -u dotglob
  files=(HANDLES crates.txt)
  for folder in "${folders[@]}"; do
    for file in "$folder"/**; do
      [ ! -f "$file" ] || files+=("$file")
    done
  done
}

# sum_of_sources: prints the SHA-256 of the lines that sha256sum prints for the sources, in the order of their names as bytes
sum_of_sources() (
  cd "$top" && sources || exit
  export LC_ALL=C
  for ((first = 0; first < ${#files[@]}; first += 500)); do
    sha256sum -- "${files[@]:first:500}"
  done | sort -k 2 | sha256sum
)

# made_of PROGRAM KIT: prints the lines of PROGRAM.made where this kit made PROGRAM from the sources as they stand
made_of() {
  local of_sources of_program
  of_sources=$(sum_of_sources) && of_program=$(sha256sum <"$1") || return
  printf 'kit %s\nsources %s\nprogram %s\n' "$2" "${of_sources%% *}" "${of_program%% *}"
}

# is_kit NAME: this is one of the kits
is_kit() {
  local one
  for one in "${kits[@]}"; do
    [ "$1" != "$one" ] || return 0
  done
  return 1
}

# kit_of PROGRAM: prints the kit that PROGRAM.made names
kit_of() {
  local word name
  read -r word name <"$1.made" && printf '%s\n' "$name"
}

# fits PROGRAM: PROGRAM.made names one of the kits, and says what `made_of` says now
fits() {
  local made_by
  [ -x "$1" ] && [ -r "$1.made" ] && made_by=$(kit_of "$1") && is_kit "$made_by" && [ "$(<"$1.made")" == "$(made_of "$1" "$made_by")" ]
}

# is_newer PROGRAM: no source has been written since PROGRAM was
is_newer() (
  [ -x "$1" ] && cd "$top" && sources || exit 1
  for file in "${files[@]}"; do
    [ ! "$file" -nt "$1" ] || exit 1
  done
)

# find_program: prints which program is made from the sources as they stand: proved, built, tried or none
find_program() {
  if fits "$proved"; then
    echo proved
  elif is_newer "$built"; then
    echo built
  elif is_newer "$tried"; then
    echo tried
  else
    echo none
  fi
}

# has_kit: sets `kit` to what the command rt on the PATH says of itself; and this is one of the kits
has_kit() {
  kit=$(rt version 2>/dev/null) && is_kit "$kit"
}

# need_kit: sets `kit` to the kit of the command rt on the PATH, and `kit_folder` to its folder. It ends the script with one line where there is
# none, or another than those.
need_kit() {
  if ! command -v rt >/dev/null; then
    echo "${0##*/}: the command rt of the kit ${kits[0]} is not on the PATH" >&2
    exit 127
  fi
  if ! has_kit; then
    echo "${0##*/}: the command rt on the PATH is of $kit, and the program is built by one of these: $(printf '%s; ' "${kits[@]}")" >&2
    exit 127
  fi
  kit_folder=$(dirname "$(dirname "$(readlink -f "$(command -v rt)")")")
}
