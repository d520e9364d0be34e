# Compares the replies to a script with those that are due, as tests/write_scripts.awk describes them. tests/pieces runs
# it:
#
#   awk -v made=PATH -f tests/compare_replies.awk DUE REPLIES
#
# It prints the first difference, and its status is 1 where there is one. Ranks have to be each number from 0 once, and
# to rise in each session. The texts that `made` names are written to PATH, a line NAME TEXT each. What is compared is
# made a word by appending "", since awk would compare some hex digits as numbers.

NR == FNR {
  split($0, field, "\t")
  place[++wanted] = field[1]
  case_of[wanted] = field[2]
  command[wanted] = field[3]
  status[wanted] = field[4]
  bytes[wanted] = field[5]
  next
}

{
  if (++replies > wanted) differs("a reply too many: " $0)
  if ($1 "" != place[replies]) differs("the reply " $1 " where " place[replies] " is due")
  rank = substr($2, 2)
  if ($2 !~ /^@(0|[1-9][0-9]*)$/ || rank + 0 >= wanted || (rank in seen)) differs("the rank " $2)
  seen[rank]
  session = $1
  sub(/[.].*/, "", session)
  if ((session in last) && rank + 0 <= last[session] + 0) differs("the rank " $2 " after @" last[session])
  last[session] = rank
  if ($3 "" != status[replies]) differs($3 " and not " status[replies])
  check($4 "")
}

END {
  if (!found && replies < wanted) differs(replies + 0 " replies of " wanted)
  exit found
}

function check(given,   name) {
  split(bytes[replies], due, " ")
  name = case_of[replies]
  if (due[1] == "none" && given != "") differs(given " where no bytes are due")
  if (due[1] == "key" && given !~ /^[0-9a-f][0-9a-f][0-9a-f][0-9a-f][0-9a-f][0-9a-f][0-9a-f][0-9a-f]$/)
    differs("'" given "' where a key's identifier is due")
  if (due[1] == "is" && given != due[2]) differs("'" given "' and not " due[2])
  if (due[1] == "add" || due[1] == "all" || due[1] == "made") text[name] = text[name] given
  if (due[1] == "all" && text[name] != due[2]) differs("the text '" text[name] "' and not '" due[2] "'")
  if (due[1] == "made") {
    if (length(text[name]) != due[3] || substr(text[name], 1, length(due[4])) != due[4])
      differs("the text '" text[name] "' and not " due[3] " digits with the first ones '" due[4] "'")
    if (!(due[2] in same)) {
      same[due[2]] = text[name]
      print due[2], text[name] >made
    }
    if (text[name] != same[due[2]]) differs("the text " text[name] ", and cut otherwise " same[due[2]])
  }
}

function differs(what) {
  found = 1
  if (replies in place) what = case_of[replies] ", " command[replies] " (" place[replies] "): " what
  print what
  exit 1
}
