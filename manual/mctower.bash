# Completes commands and options of mctower in bash. Made by tools/manual.py from the text of the help.
_mctower() {
  local word=${COMP_WORDS[COMP_CWORD]} before=${COMP_WORDS[COMP_CWORD - 1]} words=
  case $before in
    --lock) words='ticket grant' ;;
    --cpus | --schedule | --times | --turns) return ;;
    *)
      case $COMP_CWORD:${COMP_WORDS[1]} in
        1:*) words='count run threads check help --help --version' ;;
        *:count) words='--cpus --times --lock --help' ;;
        *:run) words='--schedule --help' ;;
        *:threads) words='--turns --help' ;;
        *:check) words='--help' ;;
      esac
      ;;
  esac
  mapfile -t COMPREPLY < <(compgen -W "$words" -- "$word")
}
complete -o default -F _mctower mctower
