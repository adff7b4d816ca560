-- nested loops with arithmetic: 9 million turns
local sum = 0
for i = 1, 3000 do
  for j = 1, 3000 do
    sum = sum + i * j % 7
  end
end
print(sum)
