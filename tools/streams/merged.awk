# A merged log of four machines, so many boards at a time:
# awk -v lines=1000000 -v boards=1000 -f tools/streams/merged.awk > merged.log
function id(c) { return sprintf("00000001-0000-8000-8000-%012x", c) }
function say(m, what) { if (n < lines) print m " " ++n " " what }
BEGIN {
  for (c = 1; n < lines; c += boards) {
    for (b = c; b < c + boards; b++) say(1, "insert 1 " id(b))
    for (g = 1; g < 4; g++)
      for (b = c; b < c + boards; b++) {
        say(g + 1, "starts in " id(b)); say(g, "opens out " id(b)); say(g, "leaves out " id(b)); say(g + 1, "settles in " id(b))
      }
    for (b = c; b < c + boards; b++) say(4, "remove 4 " id(b))
  }
}
