local n = io.read('n')
local x = 1
local s = {}
local t = {}
for i = 1, n do
  x = x * 16807 % 2147483647
  s[x % (2 * n)] = true
  t[x // 3 % (2 * n)] = true
end

local function size(set)
  local count = 0
  for _ in pairs(set) do
    count = count + 1
  end
  return count
end

local joined, common, left = {}, {}, {}
for i in pairs(s) do
  joined[i] = true
  if t[i] then
    common[i] = true
  else
    left[i] = true
  end
end
for i in pairs(t) do
  joined[i] = true
end
print(size(s) .. ' ' .. size(t) .. ' ' .. size(joined) .. ' ' .. size(common) .. ' ' .. size(left))

local hits = 0
for i = 1, n do
  if s[i] and not t[i] then
    hits = hits + 1
  end
end
local least, greatest = math.maxinteger, math.mininteger
for i in pairs(s) do
  least = math.min(least, i)
end
for i in pairs(t) do
  greatest = math.max(greatest, i)
end
print(hits .. ' ' .. least .. ' ' .. greatest)

for i in pairs(t) do
  s[i] = nil
end
local count, total = 0, 0
for i in pairs(s) do
  count = count + 1
  total = total + i
end
print(count .. ' ' .. total)
