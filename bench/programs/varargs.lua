-- lists of values that are passed on and cut
local function pass(...)
  return ...
end
local function sum(a, b, c)
  return a + b + c
end
local total = 0
for i = 1, 1000000 do
  total = total + sum(pass(i, 1, 2, 3))
end
print(total)
