# The messages of a thousand handovers, spelled as they are written (spell=0), or as another maker may spell them, with a
# declaration, indentation, single quotes, a space before /> and attributes in another order (spell=1):
# awk -v spell=0 -f tools/streams/messages.awk > messages.stream
function say(body, other) {
  if (!spell) { printf "<Hermes Timestamp=\"2024-03-05T07:08:09.500\">%s</Hermes>", body; return }
  gsub(/"/, "\047", other)
  printf "<?xml version=\"1.0\" encoding=\"UTF-8\"?>\n<Hermes Timestamp=\0472024-03-05T07:08:09.500\047>\n  %s\n</Hermes>\n", other
}
BEGIN {
  for (n = 1; n <= 1000; n++) {
    id = "\"" sprintf("00000001-0000-8000-8000-%012x", n) "\""
    b = "BoardId=" id
    say("<BoardAvailable " b " BoardIdCreatedBy=\"Loader\" FailedBoard=\"1\" FlippedBoard=\"1\" ProductTypeId=\"PCB-4711\" TopBarcode=\"B" n "\" Length=\"100.5\" Width=\"80.25\" Thickness=\"1.6\" WorkOrderId=\"WO-7\"/>",
        "<BoardAvailable TopBarcode=\"B" n "\" WorkOrderId=\"WO-7\" FlippedBoard=\"1\" FailedBoard=\"1\" Thickness=\"1.6\" Width=\"80.25\" Length=\"100.5\" ProductTypeId=\"PCB-4711\" BoardIdCreatedBy=\"Loader\" " b " />")
    say("<MachineReady FailedBoard=\"0\"/>", "<MachineReady FailedBoard=\"0\" />")
    say("<StartTransport " b "/>", "<StartTransport " b " />")
    say("<TransportFinished TransferState=\"3\" " b "/>", "<TransportFinished " b " TransferState=\"3\" />")
    say("<StopTransport TransferState=\"3\" " b "/>", "<StopTransport " b " TransferState=\"3\" />")
    say("<CheckAlive Type=\"1\" Id=\"" n "\"/>", "<CheckAlive Id=\"" n "\" Type=\"1\" />")
  }
}
