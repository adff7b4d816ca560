-- A rule of a game: damage goes through a chain of rules, each a function that may change it.
local function armour(points)
  return function(damage)
    return damage - points
  end
end

local function doubled_above(limit)
  return function(damage)
    if damage > limit then return damage * 2 end
    return damage
  end
end

local function never_negative(damage)
  if damage < 0 then return 0 end
  return damage
end

-- one rule behind the other, the first one first
local function chain(first, ...)
  if not first then
    return function(damage) return damage end
  end
  local next_rule = chain(...)
  return function(damage)
    return next_rule(first(damage))
  end
end

local rule = chain(armour(3), doubled_above(10), never_negative)
for blow = 0, 20, 5 do
  print("blow " .. blow, "damage " .. rule(blow))
end
