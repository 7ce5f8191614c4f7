# Completions of pyast for bash: source this file.
_pyast() {
  local word=${COMP_WORDS[COMP_CWORD]} before=${COMP_WORDS[COMP_CWORD - 1]} command=${COMP_WORDS[1]} words=
  if [ "$COMP_CWORD" -eq 1 ]; then
    mapfile -t COMPREPLY < <(compgen -W 'tokens dump unparse check help -h --help -V --version' -- "$word")
    return
  fi
  case $before in
    --count | --resume | --indent | --stdin-name) return ;;
  esac
  case $command in
    tokens) words='-e --count --resume --stdin-name -h --help' ;;
    dump) words='--indent --bare --attributes --py312 --whole --show --stdin-name -h --help' ;;
    unparse) words='--py312 --whole --show --stdin-name -h --help' ;;
    check) words='--py312 --whole --show --stdin-name -h --help' ;;
    help) words='tokens dump unparse check help' ;;
  esac
  case $word in
    -*) mapfile -t COMPREPLY < <(compgen -W "$words" -- "$word") ;;
    *)
      if [ "$command" = help ]; then
        mapfile -t COMPREPLY < <(compgen -W "$words" -- "$word")
      else
        mapfile -t COMPREPLY < <(compgen -f -- "$word")
      fi
      ;;
  esac
}
complete -o filenames -F _pyast pyast
