# A script of 50,000 handovers that nothing disturbs: awk -f tools/streams/handovers.awk > handovers.script
# With -v lane=4 they are on that lane of a line of four.
function on_lane(lines) {
  if (lane > 1) gsub(/[0-9]/, "&." lane, lines)
  return lines
}
BEGIN {
  if (lane) print "lanes 4"
  print "machine 4\nmachine 4\n" on_lane("connect 2\nflow 1 out\nflow 2 in")
  handover = on_lane("insert 1\nflow 1 out\nflow 2 in\nflow 1 out\nbegin 1\nsense 1\nsense 2\nleft 1\nsense 1\nin 1\nsense 2\nflow 2 in\nflow 1 out")
  removal = on_lane("remove 2")
  for (c = 1; c <= 50000; c++) printf "%s\n%s 00000001-0000-8000-8000-%012x\n", handover, removal, c
}
