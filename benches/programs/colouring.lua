local n = io.read('n')
local x = 1
local graph = {}
for place = 1, n do
  graph[place] = {}
end
for place = 1, n do
  for way = 1, 3 do
    x = x * 16807 % 2147483647
    local other = 1 + x % n
    if other ~= place then
      graph[place][other] = true
      graph[other][place] = true
    end
  end
end
local count = 0
for _, images in ipairs(graph) do
  for _ in pairs(images) do
    count = count + 1
  end
end
print(count)

local colour = {}
for place = 1, n do
  local taken = {}
  for other in pairs(graph[place]) do
    if colour[other] then
      taken[colour[other]] = true
    end
  end
  local shade = 1
  while taken[shade] do
    shade = shade + 1
  end
  colour[place] = shade
end

local places = {}
for _, shade in ipairs(colour) do
  places[shade] = (places[shade] or 0) + 1
end
for shade, number in ipairs(places) do
  print(shade .. ' ' .. number)
end
local differ = true
for a, images in ipairs(graph) do
  for b in pairs(images) do
    differ = differ and colour[a] ~= colour[b]
  end
end
print(tostring(differ))
