local n = io.read('n')
local x = 1
local graph = {}
for place = 1, n do
  graph[place] = {}
end
local count = 0
for way = 1, 3 * n // 2 do
  x = x * 16807 % 2147483647
  local ways = graph[1 + x // 1000 % n]
  x = x * 16807 % 2147483647
  local other = 1 + x // 1000 % n
  if not ways[other] then
    ways[other] = true
    count = count + 1
  end
end
print(count)

local seen = {}
local order = {}
for root = 1, n do
  if not seen[root] then
    seen[root] = true
    local stack = {{root, nil}}
    while #stack > 0 do
      local top = stack[#stack]
      local place = top[1]
      local other = next(graph[place], top[2])
      top[2] = other
      if not other then
        order[#order + 1] = place
        stack[#stack] = nil
      elseif not seen[other] then
        seen[other] = true
        stack[#stack + 1] = {other, nil}
      end
    end
  end
end

local back = {}
for place = 1, n do
  back[place] = {}
end
for a, images in ipairs(graph) do
  for b in pairs(images) do
    back[b][a] = true
  end
end
local root_of = {}
local stack = {}
for i, place in ipairs(order) do
  stack[i] = {place, place}
end
while #stack > 0 do
  local place, root = table.unpack(stack[#stack])
  stack[#stack] = nil
  if not root_of[place] then
    root_of[place] = root
    for other in pairs(back[place]) do
      stack[#stack + 1] = {other, root}
    end
  end
end

local sizes = {}
for _, root in pairs(root_of) do
  sizes[root] = (sizes[root] or 0) + 1
end
local components, most, single = 0, 0, 0
for _, size in pairs(sizes) do
  components = components + 1
  most = math.max(most, size)
  if size == 1 then
    single = single + 1
  end
end
print(components .. ' ' .. most .. ' ' .. single)
