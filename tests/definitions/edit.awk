# Puts the text NEW in the place of OLD, which has to stand once in the file.
BEGIN { old = ENVIRON["OLD"]; new = ENVIRON["NEW"] }
{
  place = index($0, old)
  if (place) {
    found++
    if (index(substr($0, place + 1), old)) found++
    $0 = substr($0, 1, place - 1) new substr($0, place + length(old))
  }
  print
}
END { exit found != 1 }
