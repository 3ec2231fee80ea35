# Bash completion for `ipx`: commands, their options, and TOML files. ./install puts it where bash-completion looks for it.
# Without installing, load it by `. contrib/ipx.bash`.

_ipx_commands='hop show check sim udp route farewell ipxnet listen send networks services ping help'

# _ipx_options COMMAND: its options, the same as in `ipx COMMAND --help`, which a test checks.
_ipx_options() {
  case $1 in
    show) echo '--frame --help' ;;
    udp | ipxnet) echo '--port --help' ;;
    route) echo '--check --help' ;;
    listen) echo '--once --check --help' ;;
    networks | services) echo '--json --help' ;;
    ping) echo '-c --help' ;;
    hop | check | sim | farewell | send) echo '--help' ;;
    '') echo '--help --version' ;;
  esac
}

# _ipx_files WORD: the TOML files and folders whose names begin with the word.
_ipx_files() {
  local found
  # (so that bash quotes file names, and writes a slash after a folder)
  compopt -o filenames 2> /dev/null || true
  while IFS= read -r found; do
    if [ -d "$found" ] || [[ $found == *.toml ]]; then COMPREPLY+=("$found"); fi
  done < <(compgen -f -- "$1")
}

_ipx() {
  local word=${COMP_WORDS[COMP_CWORD]} command='' place
  COMPREPLY=()
  [ "$COMP_CWORD" = 1 ] || command=${COMP_WORDS[1]}
  if [[ $word == -* ]]; then
    mapfile -t COMPREPLY < <(compgen -W "$(_ipx_options "$command")" -- "$word")
    return
  fi
  case $command in
    '' | help) mapfile -t COMPREPLY < <(compgen -W "$_ipx_commands" -- "$word") ;;
    route | farewell | listen | send | networks | services | ping)
      # (the file is the first argument that is not an option)
      for ((place = 2; place < COMP_CWORD; place++)); do
        [[ ${COMP_WORDS[place]} == -* ]] || return
      done
      _ipx_files "$word"
      ;;
  esac
}

complete -F _ipx ipx
