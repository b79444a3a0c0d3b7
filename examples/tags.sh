# Tag lists in the shell; other scripts source this file.
#   opens NAME, closes     one tag
#   repeat N COMMAND..     the command N times
#   chain N                N elements named 1, each the only child of the one before it
opens() { printf "OP\\x$(printf %02x $(($1 % 256)))\\x$(printf %02x $(($1 / 256)))"; }
closes() { printf CL; }

repeat() {
  local i count=$1
  shift
  for ((i = 0; i < count; i++)); do "$@"; done
}

chain() { repeat "$1" opens 1; repeat "$1" closes; }
