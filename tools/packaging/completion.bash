# Completion of bash for `terra`, which the packages have.
_terra() {
  local word=${COMP_WORDS[COMP_CWORD]} before=${COMP_WORDS[COMP_CWORD - 1]}
  COMPREPLY=()
  case $COMP_CWORD:${COMP_WORDS[1]} in
    1:*) mapfile -t COMPREPLY < <(compgen -W 'run wire mirror drill edit view explain split --help --version' -- "$word") ;;
    *:run)
      case $before in
        --workers) mapfile -t COMPREPLY < <(compgen -W '0 1 2 3 4 8 16' -- "$word") ;;
        --watch) mapfile -t COMPREPLY < <(compgen -W '0 1 2 3 4 5 6 7 8' -- "$word") ;;
        --*) ;;
        *) mapfile -t COMPREPLY < <(compgen -W '--workers --watch --looks' -- "$word") ;;
      esac
      ;;
    *:view | *:explain) mapfile -t COMPREPLY < <(compgen -f -X '!*.jsonl' -- "$word"; compgen -d -- "$word") ;;
    *:split) mapfile -t COMPREPLY < <(compgen -f -X '!*.obj' -- "$word"; compgen -d -- "$word") ;;
  esac
}
complete -o default -F _terra terra
