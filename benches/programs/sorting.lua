local function quicksort(t)
  if #t < 2 then
    return t
  end
  local middle = t[1 + #t // 2]
  local less, same, more = {}, {}, {}
  for _, x in ipairs(t) do
    local part = x < middle and less or x == middle and same or more
    part[#part + 1] = x
  end
  local sorted = quicksort(less)
  table.move(same, 1, #same, #sorted + 1, sorted)
  more = quicksort(more)
  return table.move(more, 1, #more, #sorted + 1, sorted)
end

local function merged(a, b)
  local both = {}
  local i, j = 1, 1
  while i <= #a and j <= #b do
    if a[i] <= b[j] then
      both[#both + 1] = a[i]
      i = i + 1
    else
      both[#both + 1] = b[j]
      j = j + 1
    end
  end
  table.move(a, i, #a, #both + 1, both)
  return table.move(b, j, #b, #both + 1, both)
end

local function merge_sort(t)
  if #t < 2 then
    return t
  end
  local half = #t // 2
  return merged(merge_sort(table.move(t, 1, half, 1, {})), merge_sort(table.move(t, half + 1, #t, 1, {})))
end

local n = io.read('n')
local x = 1
local numbers = {}
for i = 1, n do
  x = x * 16807 % 2147483647
  numbers[i] = x // 1000 % n
end

local rising = quicksort(numbers)
print(rising[1] .. ' ' .. rising[n // 2] .. ' ' .. rising[n])
local merge = merge_sort(numbers)
local equal = #merge == #rising
for i, number in ipairs(merge) do
  equal = equal and number == rising[i]
end
print(tostring(equal))
