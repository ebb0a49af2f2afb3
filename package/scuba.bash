# Completion in bash of scuba and of its tools, scuba-load and others.

# _scuba_choose WORDS: those of the words that begin with what is typed. (compgen -W would run a command in a word.)
_scuba_choose() {
  local words word
  read -r -d '' -a words <<<"$1"
  for word in "${words[@]}"; do
    [[ $word != "${COMP_WORDS[COMP_CWORD]}"* ]] || COMPREPLY+=("$word")
  done
}

# _scuba_folders: the folders that begin with what is typed
_scuba_folders() {
  compopt -o filenames 2>/dev/null
  mapfile -t COMPREPLY < <(compgen -d -- "${COMP_WORDS[COMP_CWORD]}")
}

# _scuba_leaves DIR: the leaves whose regions are in the folder, as REPLY
_scuba_leaves() {
  local file
  REPLY=
  for file in "$1"/leaf-*.region; do
    file=${file##*/leaf-}
    file=${file%.region}
    [[ $file == *[!0-9]* ]] || REPLY+=" $file"
  done
}

# _scuba_tables DIR: the tables of the folder, which its file `fleet` names, as REPLY
_scuba_tables() {
  local words
  REPLY=
  { read -r -a words <"$1/fleet"; } 2>/dev/null && REPLY=${words[*]:3}
}

_scuba() {
  local folder=${COMP_WORDS[1]/#'~/'/"$HOME/"} REPLY
  COMPREPLY=()
  case $COMP_CWORD in
    1) _scuba_folders && _scuba_choose mem ;;
    2) _scuba_choose 'count inspect play soak' ;;
    3)
      if [ "${COMP_WORDS[2]}" = inspect ]; then
        _scuba_leaves "$folder"
        _scuba_choose "$REPLY"
      fi
      ;;
  esac
}

# The options of a tool are those that its --help tells. Its first word that is a folder is DIR, and a table of that
# folder may follow.
_scuba_tool() {
  local word path folder='' REPLY
  COMPREPLY=()
  if [[ ${COMP_WORDS[COMP_CWORD]} == -* ]]; then
    _scuba_choose "$("$1" --help 2>/dev/null | grep -o -e '--[a-z][a-z-]*' | sort -u)"
    return
  fi
  for word in "${COMP_WORDS[@]:1:COMP_CWORD-1}"; do
    path=${word/#'~/'/"$HOME/"}
    if [ -z "$folder" ] && [ -d "$path" ]; then folder=$path; fi
  done
  case $folder:$1 in
    :*) _scuba_folders ;;
    *load | *dump)
      _scuba_tables "$folder"
      _scuba_choose "$REPLY"
      ;;
  esac
}

complete -F _scuba scuba
complete -o default -F _scuba_tool scuba-load scuba-ask scuba-folder scuba-dump scuba-whole_records
