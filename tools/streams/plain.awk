# A script of a million plain lines: awk -f tools/streams/plain.awk > plain.script
BEGIN {
  print "machine 1024"
  print "insert 1"
  for (n = 3; n <= 1000000; n++) print n % 1000 ? "# nothing happens here." : "show"
}
