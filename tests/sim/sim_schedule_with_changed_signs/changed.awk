# Writes 400 schedules into the files 1, 2, ..: each is the one read, with one to three of its signs changed, drawn by lot.
function next_number() {
  seed = (seed * 1103 + 12345) % 16777216
  return int(seed / 256)
}
{ text = text $0 "\n" }
END {
  split(" ,\t,\n,\r,#,.,=,%,_,-,+,0,9,A,X,R", signs, ",")
  seed = 1
  for (number = 1; number <= 400; number++) {
    changed = text
    for (changes = 1 + next_number() % 3; 0 < changes; changes--) {
      at = 1 + next_number() % length(text)
      changed = substr(changed, 1, at - 1) signs[1 + next_number() % 16] substr(changed, at + 1)
    }
    printf "%s", changed >number
    close(number)
  }
}
