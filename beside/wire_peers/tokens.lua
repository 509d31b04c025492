-- Prints, for each frame with TDS in it: its number, whether it is called malformed, and each token as PLACE:NAME.
local names = {
  "colmetadata", "done", "doneproc", "doneinproc", "envchange", "error", "featureextack", "info", "loginack", "nbcrow",
  "offset", "order", "returnstatus", "row", "sessionstate", "sspi", "unknown_tds_token",
}
local fields = {}
for place, name in ipairs(names) do
  fields[place] = Field.new("tds." .. name)
end
local malformed = Field.new("_ws.malformed")
local tap = Listener.new("frame", "tds")

function tap.packet(pinfo)
  local words = { tostring(pinfo.number), malformed() and "1" or "0" }
  for place, field in ipairs(fields) do
    for _, info in ipairs({ field() }) do
      words[#words + 1] = string.format("%d:%s", info.offset, names[place])
    end
  end
  print(table.concat(words, " "))
end
