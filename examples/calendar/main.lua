-- The day of the week of a date, and leap years, in integers alone.
local function is_leap(year)
  return year % 4 == 0 and (year % 100 ~= 0 or year % 400 == 0)
end

local function days_before(month, year)
  local days = (153 * ((month + 9) % 12) + 2) // 5
  local before = month < 3 and year - 1 or year
  return days + 365 * before + before // 4 - before // 100 + before // 400
end

local function name(weekday)
  if weekday == 0 then return "Monday"
  elseif weekday == 1 then return "Tuesday"
  elseif weekday == 2 then return "Wednesday"
  elseif weekday == 3 then return "Thursday"
  elseif weekday == 4 then return "Friday"
  elseif weekday == 5 then return "Saturday"
  else return "Sunday" end
end

local function weekday(year, month, day)
  return name((days_before(month, year) + day + 1) % 7)
end

print("1969-07-20", weekday(1969, 7, 20))
print("2000-02-29", weekday(2000, 2, 29))
print("2026-12-01", weekday(2026, 12, 1))

local leaps = 0
for year = 1901, 2000 do
  if is_leap(year) then leaps = leaps + 1 end
end
print("leap years from 1901 to 2000", leaps)
