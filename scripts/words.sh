# What the scripts of this folder do with the words that they are called by. Each reads this file before it does anything else.

# Answers the one word `--help` with the line that says what the script does, and ends; the words follow the line.
answer_help() {
  local line=$1
  shift
  if [ "$*" = --help ]; then
    echo "${0##*/}: $line"
    exit 0
  fi
}

# The same for a script that takes no words: any other word is refused.
take_no_words() {
  answer_help "$@"
  if [ $# -gt 1 ]; then
    echo "usage: scripts/${0##*/} [--help]" >&2
    exit 2
  fi
}
