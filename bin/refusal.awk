# Says in one line what a refusal means: its number, its name, and when it comes by the first table of the documents that has a
# row for it. The variable `code` is its number, and the first file has the names of all codes. Status 1, where there is none.

FNR == NR {
  split($0, parts, /[(,"]/)
  if (/codes "/ && parts[2] "" == code "") name = parts[4]
  next
}

/^\| Code/ { table++; is_of_codes = 1; next }
!/^\|/ { is_of_codes = 0 }

# its first cell is the number, maybe with the name, and the second says when it comes, where it leads to no other table
is_of_codes {
  gsub(/\\\|/, "\001")
  split($0, cells, / *\| */)
  split(cells[2], first, " ")
  when = cells[3]
  if (first[1] "" != code "" || when == "below" || when ~ /^`[A-Z]+\.md`$/ || (said != "" && table != found)) next
  gsub(/\001/, "|", when)
  said = said (said == "" ? "" : "; or ") when
  found = table
}

END {
  if (name == "" || said == "") exit 1
  print code " " name ": " said
}
