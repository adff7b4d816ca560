-- Primes by trial division, and how they are spread.
local function is_prime(n)
  if n < 2 then return false end
  local d = 2
  while d * d <= n do
    if n % d == 0 then return false end
    d = d + 1
  end
  return true
end

local line, count = "", 0
for n = 1, 60 do
  if is_prime(n) then
    line = line .. (count > 0 and " " or "") .. n
    count = count + 1
  end
end
print(line)
print(count .. " primes up to 60")

local gap, last = 0, 2
for n = 3, 1000 do
  if is_prime(n) then
    if n - last > gap then gap = n - last end
    last = n
  end
end
print("widest gap below 1000", gap, "last prime", last)
