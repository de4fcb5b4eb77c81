# Completion of kbfeed-convert for bash. Paths are left to readline, which knows of quotes, spaces and ~.
_kbfeed_convert() {
  local word=${COMP_WORDS[COMP_CWORD]} before=${COMP_WORDS[COMP_CWORD - 1]}
  COMPREPLY=()
  # Bash splits --into=DIR at its =.
  if [[ $word == = ]]; then word=; elif [[ $before == = ]]; then before=${COMP_WORDS[COMP_CWORD - 2]}; fi
  case $before in
    --into | --library) compopt -o dirnames; return ;;
    --map | --report) compopt -o default; return ;;
    --type) COMPREPLY=($(compgen -W 'serial monograph' -- "$word")); return ;;
    --encoding)
      COMPREPLY=($(compgen -W 'utf-8 utf-16 cp1252 cp949 cp932 gb18030 big5' -- "$word")); return ;;
    --profile) COMPREPLY=($(compgen -W 'sfx alma 360 ebsco ezb pmc doab gokb kbart' -- "$word")); return ;;
    --name | --package | --date | --sheet | --replace) return ;;
  esac
  if [[ $word == -* ]]; then
    COMPREPLY=($(compgen -W '-h --help --into --name --package --date --type --encoding --sheet --map --profile
      --replace --library --report --strict -v --verbose' -- "$word"))
  else
    compopt -o default
  fi
}
complete -F _kbfeed_convert kbfeed-convert
