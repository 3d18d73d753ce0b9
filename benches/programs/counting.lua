local n = io.read('n')
local total = 0
for i = 1, n do
  if i % 3 == 0 or i % 5 == 0 then
    total = total + i
  end
end
print(total)

local i = n
local halved = 0
while i > 0 do
  if i % 2 == 0 then
    halved = halved + i // 2
  end
  i = i - 1
end
print(halved)
