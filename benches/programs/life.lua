-- A cell is one number, made of its column and its row.
local WIDTH = 1 << 20
local STEPS = {}
for dx = -1, 1 do
  for dy = -1, 1 do
    if dx ~= 0 or dy ~= 0 then
      STEPS[#STEPS + 1] = dx * WIDTH + dy
    end
  end
end

local function next_cells(cells)
  local near = {}
  for cell in pairs(cells) do
    for _, step in ipairs(STEPS) do
      near[cell + step] = (near[cell + step] or 0) + 1
    end
  end
  local born = {}
  for cell, count in pairs(near) do
    if count == 3 or count == 2 and cells[cell] then
      born[cell] = true
    end
  end
  return born
end

local function size(set)
  local count = 0
  for _ in pairs(set) do
    count = count + 1
  end
  return count
end

local n = io.read('n')
local x = 1
local cells = {}
for column = 1, n do
  for row = 1, n do
    x = x * 16807 % 2147483647
    if x // 1000 % 3 == 0 then
      -- columns and rows may fall below 0
      cells[(column + 1000) * WIDTH + row + 1000] = true
    end
  end
end
print(size(cells))

for generation = 1, 10 do
  cells = next_cells(cells)
  print(generation .. ' ' .. size(cells))
end
local least, greatest = math.maxinteger, math.mininteger
for cell in pairs(cells) do
  least = math.min(least, cell // WIDTH - 1000)
  greatest = math.max(greatest, cell % WIDTH - 1000)
end
print(least .. ' ' .. greatest)
