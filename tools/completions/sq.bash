# Completions for bash of sq and of the tools beside it: commands, then files by their endings, then the options of a
# run. Source this file.

# Files with one of the endings behind the word, and folders.
_sq_files() {
  local word=$1 ending
  shift
  compopt -o filenames 2>/dev/null
  mapfile -t COMPREPLY < <(
    for ending in "$@"; do compgen -f -X "!*.$ending" -- "$word"; done
    compgen -d -- "$word"
  )
}

_sq_words() {
  mapfile -t COMPREPLY < <(compgen -W "$2" -- "$1")
}

# The options of a run. Readline cuts words at `=` and `:`, so what stands before the last of these is left out.
_sq_options() {
  local line=${COMP_LINE:0:COMP_POINT} whole cut
  whole=${line##* }
  case $whole in
    order=list:*)
      compopt -o filenames 2>/dev/null
      mapfile -t COMPREPLY < <(compgen -f -- "${whole#order=list:}")
      return
      ;;
  esac
  cut=${whole%"${whole##*[=:]}"}
  mapfile -t COMPREPLY < <(
    compgen -W "order=first order=last order=seed: order=list: trace=yes trace=no" -- "$whole" | sed "s|^$cut||"
  )
  # A word that goes on gets no blank.
  case "${COMPREPLY[*]}" in *: | order= | trace=) compopt -o nospace 2>/dev/null ;; esac
}

# What stands at a place behind a command, counted from 1.
_sq_at() {
  case $1:$2 in
    help:1) _sq_words "$3" "check fmt plan eval run demo compile exec tune span build library install" ;;
    install:1) _sq_files "$3" ;;
    check:1 | fmt:1 | plan:1 | eval:1 | run:1 | compile:1 | tune:1 | span:1) _sq_files "$3" sq ;;
    plan:2 | eval:2 | run:2 | compile:2 | span:2) _sq_files "$3" map ;;
    tune:2) _sq_files "$3" map choices ;;
    plan:3 | eval:3 | run:3 | compile:3 | tune:3 | span:3) _sq_files "$3" mach ;;
    exec:1) _sq_files "$3" plan ;;
    eval:4 | run:4 | exec:2) _sq_files "$3" txt ;;
    span:4) _sq_files "$3" cost ;;
    run:* | exec:*) _sq_options ;;
  esac
}

_sq() {
  local word=${COMP_WORDS[COMP_CWORD]}
  COMPREPLY=()
  if [ "$COMP_CWORD" -eq 1 ]; then
    _sq_words "$word" "check fmt plan eval run demo compile exec tune span build library install help version"
    return
  fi
  _sq_at "${COMP_WORDS[1]}" $((COMP_CWORD - 1)) "$word"
}

_sq_say() {
  local word=${COMP_WORDS[COMP_CWORD]} first=1 codes
  COMPREPLY=()
  # Another program of this name has other words.
  [[ ${COMP_WORDS[0]} == *tools/say ]] || return
  if [ "$COMP_CWORD" -gt 1 ] && [ "${COMP_WORDS[1]}" = --explain ]; then
    codes=$(sed -n 's/^###* `\([A-Za-z]*\)`.*/\1/p' "${COMP_WORDS[0]%tools/say}docs/FAULTS.md" 2>/dev/null | sort -u)
    [ "$COMP_CWORD" -gt 2 ] || _sq_words "$word" "$codes"
    return
  fi
  if [ "${COMP_WORDS[1]}" = --json ]; then first=2; fi
  case $((COMP_CWORD - first)) in
    -1 | 0) _sq_words "$word" "check fmt plan eval run demo compile exec tune span --json --explain --help" ;;
    *) _sq_at "${COMP_WORDS[first]}" $((COMP_CWORD - first)) "$word" ;;
  esac
}

# The place of the word among the files of tools/picture: options and what belongs to them are left aside.
_sq_picture_place() {
  local at place=1
  for ((at = 1; at < COMP_CWORD; at++)); do
    case ${COMP_WORDS[at]} in
      --span | --event | --plan | --trace | --output) at=$((at + 1)) ;;
      --*) ;;
      *) place=$((place + 1)) ;;
    esac
  done
  echo "$place"
}

_sq_picture() {
  local word=${COMP_WORDS[COMP_CWORD]} before=${COMP_WORDS[COMP_CWORD - 1]}
  COMPREPLY=()
  [[ ${COMP_WORDS[0]} == *tools/picture ]] || return
  case $before:$word in
    --span:*) _sq_files "$word" cost && return ;;
    --plan:* | --trace:* | --output:*)
      compopt -o filenames 2>/dev/null
      mapfile -t COMPREPLY < <(compgen -f -- "$word")
      return
      ;;
    --event:*) return ;;
    *:-*) _sq_words "$word" "--text --tune --span --event --plan --trace --output --help" && return ;;
  esac
  case $(_sq_picture_place):${COMP_LINE} in
    1:*) _sq_files "$word" sq plan ;;
    2:*.plan\ *) _sq_files "$word" txt ;;
    2:*--tune*) _sq_files "$word" map choices ;;
    2:*) _sq_files "$word" map ;;
    3:*) _sq_files "$word" mach ;;
    4:*) _sq_files "$word" txt ;;
    *) _sq_options ;;
  esac
}

# tools/why, tools/new and tools/fmt: files by their endings, the kernels of a new program, options.
_sq_tools() {
  local word=${COMP_WORDS[COMP_CWORD]}
  COMPREPLY=()
  case ${COMP_WORDS[0]}:$COMP_CWORD:$word in
    *tools/why:1:*) _sq_files "$word" sq ;;
    *tools/why:2:*) _sq_files "$word" map ;;
    *tools/why:3:*) _sq_files "$word" mach ;;
    *tools/new:2:*) _sq_words "$word" "map stencil reduction matmul" ;;
    *tools/fmt:1:-*) _sq_words "$word" "-i --check" ;;
    *tools/fmt:*) _sq_files "$word" sq ;;
  esac
}

complete -F _sq sq
complete -o default -F _sq_say say
complete -o default -F _sq_picture picture
complete -o default -F _sq_tools why new fmt
