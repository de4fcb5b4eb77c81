# Completion of kbfeed-collect for bash. Paths are left to readline, which knows of quotes, spaces and ~.
_kbfeed_collect() {
  local word=${COMP_WORDS[COMP_CWORD]} before=${COMP_WORDS[COMP_CWORD - 1]}
  COMPREPLY=()
  # Bash splits --config=FILE at its =.
  if [[ $word == = ]]; then word=; elif [[ $before == = ]]; then before=${COMP_WORDS[COMP_CWORD - 2]}; fi
  case $before in
    --config) compopt -o default; return ;;
    --only | --accept | --withdraw | --rollback | --to | --unpin) return ;;
  esac
  COMPREPLY=($(compgen -W '-h --help --config --only --accept --withdraw --rollback --to --pin --unpin --dry-run --check
    --json' -- "$word"))
}
complete -F _kbfeed_collect kbfeed-collect
