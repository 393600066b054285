# Completion of vbm for bash: source this file, or put it under /usr/share/bash-completion/completions/vbm.

# The forms of commands. FILE, NAME and NEW are completed with images of the folder, except where NEW is a file to be made, and MODE
# with the modes. A word with dots may stand more than once.
# tests/people/check.py compares the table with the grammar.
_vbm_forms='
init
init SEED
createmedium NEW --size MB
createmedium NEW --sizebyte N
openmedium NEW
closemedium NAME
closemedium NAME --delete
modifymedium NAME --type MODE
showmediuminfo NAME
list hdds
createvm VM
unregistervm VM
list vms
storageattach VM PORT NAME
storageattach VM PORT none
startvm VM
poweroff VM
peek FILE... LBA
script
--help
--version
'

# Repeats a word with dots up to the one that is completed.
_vbm_repeat() {
  local i word
  for ((i = 0; i <= ${#typed[@]}; i++)); do
    [[ ${form[i]-} == *... ]] || continue
    word=${form[i]%...}
    for (( ; i <= ${#typed[@]}; i++)); do
      form[i]=$word
    done
  done
}

# Whether the typed words begin the words of a form, where a word in capitals stands for any word.
_vbm_begins() {
  local i
  for ((i = 0; i < ${#typed[@]}; i++)); do
    [[ ${form[i]-} == "${typed[i]}" || ${form[i]-} == [A-Z]* ]] || return 1
  done
}

# The files of the folder that have a medium's name.
_vbm_images() {
  local file
  for file in "$1"*; do
    [[ -f $file && ! -L $file && ${#file} -le 64 && $file =~ ^[A-Za-z0-9._][A-Za-z0-9._-]*[.]vdi$ ]] && printf '%s\n' "$file"
  done
}

_vbm() {
  local LC_ALL=C IFS=$' \t\n' line next current=${COMP_WORDS[COMP_CWORD]}
  local -a form typed=("${COMP_WORDS[@]:1:COMP_CWORD-1}") found=()
  while read -r line; do
    read -ra form <<<"$line"
    _vbm_repeat
    _vbm_begins || continue
    next=${form[${#typed[@]}]-}
    case $next in
      '' | SEED | MB | N | LBA | VM | PORT) ;;
      MODE) found+=($(compgen -W 'normal readonly writethrough' -- "$current")) ;;
      NEW) [[ ${form[0]} == createmedium ]] || found+=($(_vbm_images "$current")) ;;
      NAME | FILE) found+=($(_vbm_images "$current")) ;;
      *) [[ $next == "$current"* ]] && found+=("$next") ;;
    esac
  done <<<"$_vbm_forms"
  COMPREPLY=()
  for next in "${found[@]}"; do
    [[ " ${COMPREPLY[*]-} " == *" $next "* ]] || COMPREPLY+=("$next")
  done
}

complete -F _vbm vbm
