# What the scripts here and in bench/ share: how they take their words, and what they look for before they begin. A script
# reads this file, names what it takes, and then has its words:
#
#   takes 2 - --seed=1 --count=100 --anew -- "$@"
#
# Two words at least and any number of them (`-`) come into the array `words`. An option with a value comes into the variable of
# its name, which has that value where the option is not given; one without a value is empty, and 1 where it is given. `--help`,
# wherever it stands, prints the comment at the head of the script and does nothing else. Wrong words, and what is not there,
# are told on the standard error, and the script ends with status 2.

give_up() {
  echo "$(basename "$0"): $1" >&2
  exit 2
}

head_of() {
  awk 'NR > 1 { if (!/^#/) exit; sub(/^# ?/, ""); print }' "$0"
}

takes() {
  local fewest=$1 most=$2 known=" " flags=" " word name value
  shift 2
  while [ "$1" != -- ]; do
    name=${1#--}
    value=
    case $name in
      *=*) value=${name#*=} name=${name%%=*} known+="$name " ;;
      *) flags+="$name " ;;
    esac
    printf -v "$name" %s "$value"
    shift
  done
  shift
  for word; do
    if [ "$word" = --help ]; then
      head_of
      exit 0
    fi
  done
  words=()
  while [ $# -gt 0 ]; do
    name=${1#--}
    if [ "$1" = "$name" ]; then
      words+=("$1")
    elif [[ $flags == *" $name "* ]]; then
      printf -v "$name" 1
    elif [[ $known == *" $name "* ]]; then
      [ $# -ge 2 ] || give_up "--$name wants a value"
      take_value "$name" "$2"
      shift
    else
      give_up "there is no option --$name; --help says what there is"
    fi
    shift
  done
  [ ${#words[@]} -ge "$fewest" ] || give_up "wants more words: $(head_of | head -1)"
  [ "$most" = - ] || [ ${#words[@]} -le "$most" ] || give_up "wants fewer words: $(head_of | head -1)"
}

# A value for a number is a number, and what is counted is one at least: a check of nothing would pass.
take_value() {
  if [[ ${!1} =~ ^[0-9]+$ ]]; then
    [[ $2 =~ ^[0-9]{1,9}$ ]] || give_up "--$1 wants a number"
    [ "$1" = seed ] || [ "$2" -gt 0 ] || give_up "--$1 wants a number from 1 on"
  fi
  printf -v "$1" %s "$2"
}

# The path of the program that is held, built before (scripts/build).
needs_program() {
  [ -f "$1" ] && [ -x "$1" ] || give_up "$1 is no program; scripts/build makes one"
  program=$(realpath "$1")
}

# Each workspace of the folder: CORPUS/NAME/w.cs.
needs_corpus() {
  local name
  [ -d "$1" ] || give_up "$1 is no folder"
  for name in "${@:2}"; do
    [ -f "$1/$name/w.cs" ] || give_up "$1/$name/w.cs is not there"
  done
  corpus=$(realpath "$1")
}

# The independent model in Python, whose folder MODEL names; what runs behind this finds it.
needs_model() {
  [ -n "${MODEL:-}" ] && [ -d "$MODEL/cscout_ref" ] ||
    give_up "needs the model: MODEL is to name the folder that has cscout_ref"
  PYTHONPATH=$(realpath "$MODEL")${1:+:$1}
  export PYTHONPATH PYTHONDONTWRITEBYTECODE=1
}

# What `rt check` built of a crate, for a copy of it: take_built FOLDER NAME. Links where they can be: rt writes such a file anew
# and never into it.
take_built() {
  [ -d "crates/$2/out/rlib" ] || return 0
  mkdir -p "$1/crates/$2/out"
  cp -rl "crates/$2/out/rlib" "$1/crates/$2/out" 2>/dev/null || cp -r "crates/$2/out/rlib" "$1/crates/$2/out"
}

# These crates into a folder, a checkout of their own: copy_crates FOLDER NAME.. What `rt check` built of them goes with them, so
# that nothing is proved again that stands. Their lines of crates.txt are written there, too.
copy_crates() {
  local to=$1 name
  mkdir -p "$to/crates"
  cp HANDLES "$to"
  for name in "${@:2}"; do
    mkdir "$to/crates/$name"
    cp -r "crates/$name/src" "crates/$name/specs" "crates/$name/proofs" "$to/crates/$name"
    take_built "$to" "$name"
    grep "^$name:" crates.txt >> "$to/crates.txt"
  done
}

needs_tool() {
  command -v "$1" >/dev/null || give_up "needs $1"
}
