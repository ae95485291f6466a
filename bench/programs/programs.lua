-- The programs of this folder in Lua: NAME is done TIMES times, and the last result is told.
local programs = {}

function programs.sum()
  local sum, n = 0, 20000
  repeat
    sum = (sum + n) & 0xffffffff
    n = n - 1
  until n == 0
  return sum
end

function programs.memory()
  local words = {}
  for at = 0, 1023 do words[at] = 0 end
  for _ = 1, 5 do
    for at = 0, 1023 do
      words[at] = (words[at] + 4 * at + 1) & 0xffffffff
    end
  end
  return words[1023]
end

function programs.sieve()
  local composite, count = {}, 0
  for number = 0, 2047 do composite[number] = false end
  for number = 2, 2047 do
    if not composite[number] then
      count = count + 1
      for multiple = 2 * number, 2047, number do composite[multiple] = true end
    end
  end
  return count
end

function programs.sort()
  local words, drawn = {}, 1
  for at = 0, 127 do
    drawn = (drawn * 1103515245 + 12345) & 0xffffffff
    words[at] = drawn >> 16
  end
  for first = 1, 127 do
    local word, at = words[first], first
    while at ~= 0 and word < words[at - 1] do
      words[at] = words[at - 1]
      at = at - 1
    end
    words[at] = word
  end
  local sum = 0
  for at = 0, 127 do
    sum = (sum + words[at] * (at + 1)) & 0xffffffff
  end
  return sum
end

local result = 0
for _ = 1, tonumber(arg[2]) do result = programs[arg[1]]() end
print(result)
