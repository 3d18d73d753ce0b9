local n = io.read('n')
local count = 0
local total = 0
local number = io.read('n')
while number do
  count = count + 1
  total = total + number
  number = io.read('n')
end
print(tostring(count == n) .. ' ' .. total)
