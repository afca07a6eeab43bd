# Completion of cscout for bash. scripts/install puts it where bash looks; else source this file.
_cscout() {
  local word=${COMP_WORDS[COMP_CWORD]} at=$COMP_CWORD words
  # cscout-dry-run has the program in front
  [ "${COMP_WORDS[0]##*/}" = cscout ] || at=$((at - 1))
  # words that stand in front of all others
  local front=$((1 + COMP_CWORD - at))
  while [ "$front" -lt "$COMP_CWORD" ] && [[ ${COMP_WORDS[front]} == --why || ${COMP_WORDS[front]} == --diff ]]; do
    front=$((front + 1)) at=$((at - 1))
  done
  local command=${COMP_WORDS[2 + COMP_CWORD - at]}
  case $at in
    0) mapfile -t COMPREPLY < <(compgen -c -- "$word") ;;
    1)
      words=
      [ "$at" != "$COMP_CWORD" ] || words='--help --version --diff --why -C generate'
      mapfile -t COMPREPLY < <(compgen -W "$words" -- "$word"; compgen -f -X '!*.cs' -- "$word"; compgen -d -S / -- "$word")
      ;;
    2)
      words='rename template macro trim tokens skipped check class unused includes calls find batch'
      [ "${COMP_WORDS[1]}" != generate ] || words=
      mapfile -t COMPREPLY < <(compgen -W "$words" -- "$word")
      ;;
    3)
      case $command in
        rename | template | macro | class | batch) mapfile -t COMPREPLY < <(compgen -f -- "$word") ;;
        trim) mapfile -t COMPREPLY < <(compgen -W stays -- "$word") ;;
        find)
          words='name= macro function object typedef parameter enumerator tag member label external readonly unused cut'
          mapfile -t COMPREPLY < <(compgen -W "$words" -- "$word")
          ;;
      esac
      ;;
    7) [ "$command" != rename ] || mapfile -t COMPREPLY < <(compgen -W strings -- "$word") ;;
  esac
}
complete -o filenames -o nospace -F _cscout cscout cscout-dry-run
