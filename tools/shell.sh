# What the shell tools of this folder share.

# Prints the comment at the head of a tool, which says what it does and which words it takes.
print_head() {
  sed -n '2,/^[^#]/{s/^# \{0,1\}//p}' "$1"
}

# Ends a tool that takes no words: with its head where that was asked for, and else where a word was given.
#
#   refuse_words TOOL "$@"
refuse_words() {
  local tool=$1 word
  shift
  for word; do
    case $word in
      -h | --help)
        print_head "$tool"
        exit 0
        ;;
    esac
  done
  for word; do
    printf 'tools/%s: unknown word: %s (--help says which there are)\n' "${tool##*/}" "$word" >&2
    exit 2
  done
}
