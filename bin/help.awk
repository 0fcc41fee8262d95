# Lists the commands and the options, from the tables at the head of docs/COMMANDS.md.

/^## / { exit }
/^\| Command / { part = "commands"; print "Commands:"; next }
/^\| Option / { part = "options"; print "\nOptions:"; next }
!/^\| `/ { next }
{
  gsub(/`/, "")
  split($0, cells, / *\| */)
}
part == "commands" { printf "  fshell %s %s\n      %s\n", cells[2], cells[3], cells[4] }
part == "options" {
  range = cells[3] == "" ? "" : " (" cells[3] "; default " cells[4] ")"
  printf "  %s%s\n      %s\n", cells[2], range, cells[5]
}
