# Sourced by scripts that take no arguments. --help prints the comment at the head of the script; any other argument is
# refused.
case "${1-} $#" in
  ' 0') ;;
  '--help 1' | '-h 1') sed '1d; /^#/!Q; s/^# \{0,1\}//' "$0" && exit 0 ;;
  *) echo "$0: takes no arguments; --help says what it does" >&2 && exit 2 ;;
esac
