-- strings that grow piece by piece
local length = 0
for round = 1, 100 do
  local text = ""
  for i = 1, 2000 do
    text = text .. i .. ","
  end
  length = length + #text
end
print(length)
