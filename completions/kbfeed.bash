# Completion of kbfeed for bash. Paths are left to readline, which knows of quotes, spaces and ~.
_kbfeed() {
  local commands='replay check diff answer openurl serve node fetch ask export status why help'
  local word=${COMP_WORDS[COMP_CWORD]} has_options=yes command= places=0 options= index
  COMPREPLY=()
  case ${COMP_WORDS[COMP_CWORD - 1]} in
    '<' | '>' | '>>' | --token | --site | --sites | --wanted | --db | --scholar) compopt -o default; return ;;
  esac

  # The command, and how many words are behind it before the cursor. Bash splits --name=VALUE at its =.
  for ((index = 1; index < COMP_CWORD; index++)); do
    case $has_options${COMP_WORDS[index]} in
      yes--) has_options= ;;
      yes--name | yes--count | yes--timeout | yes--idle | yes--max-age | yes--metrics | yes--log-queries | yes--piece | \
        yes--fetch-timeout | yes--clients | yes--from | yes--token | yes--site | yes--sites | yes--wanted | \
        yes--max-removed | yes--max-changed | yes--db | yes--scholar)
        [[ ${COMP_WORDS[index + 1]} == = ]] && ((index++))
        ((index++)) ;;
      yes-?*) ;;
      *) if [[ $command ]]; then ((places++)); else command=${COMP_WORDS[index]}; fi ;;
    esac
  done
  ((index > COMP_CWORD)) && return

  case $command in
    '') options='-h --help -V --version -v --verbose' ;;
    check) options='-h --help -v --verbose --name --strict --summary --explain --json --all' ;;
    diff) options='-h --help -v --verbose --db --summary --json --max-removed --max-changed' ;;
    openurl) options='-h --help -v --verbose --json' ;;
    serve) options='-h --help -v --verbose --count --timeout' ;;
    node)
      options='-h --help -v --verbose --check --from --token --site --sites --wanted --piece --fetch-timeout
        --any-type --max-shrink --clients --timeout --idle --max-age --metrics --metrics-packages --forwarded
        --log-queries' ;;
    fetch) options='-h --help -v --verbose --piece --timeout' ;;
    export) options='-h --help -v --verbose --scholar' ;;
    replay | answer | ask | status | why) options='-h --help -v --verbose' ;;
  esac
  if [[ $has_options && $word == -* ]]; then
    COMPREPLY=($(compgen -W "$options" -- "$word"))
  else
    case $command/$places in
      /0 | help/0) COMPREPLY=($(compgen -W "$commands" -- "$word")) ;;
      check/* | diff/0 | diff/1 | answer/0 | node/0 | fetch/0 | ask/0 | status/0 | why/0) compopt -o default ;;
      serve/0) compopt -o dirnames ;;
    esac
  fi
}
complete -F _kbfeed kbfeed
