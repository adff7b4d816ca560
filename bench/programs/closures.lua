-- closures that share a variable: 600000 of them are made
local function pair()
  local n = 0
  local function add(k) n = n + k end
  local function get() return n end
  return add, get
end
local total = 0
for i = 1, 300000 do
  local add, get = pair()
  add(i)
  add(1)
  total = total + get()
end
print(total)
