local n = io.read('n')
local x = 1
local graph = {}
local count = 0
for place = 1, n do
  graph[place] = {}
  for way = 1, 2 do
    x = x * 16807 % 2147483647
    local other = 1 + x % n
    if not graph[place][other] then
      graph[place][other] = true
      count = count + 1
    end
  end
end
print(count)

local reached = {[1] = true}
local waiting = {1}
local total = 1
count = 1
while #waiting > 0 do
  local place = table.remove(waiting)
  for other in pairs(graph[place]) do
    if not reached[other] then
      reached[other] = true
      waiting[#waiting + 1] = other
      count = count + 1
      total = total + other
    end
  end
end
print(count .. ' ' .. total)
