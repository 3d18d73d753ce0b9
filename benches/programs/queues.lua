local n = io.read('n')
local queue = {}
for person = 1, n do
  queue[person] = person
end
local first, last = 1, n
local check = 0
while first < last do
  for k = 1, 2 do
    last = last + 1
    queue[last] = queue[first]
    queue[first] = nil
    first = first + 1
  end
  check = (31 * check + queue[first]) % 1000003
  queue[first] = nil
  first = first + 1
end
print(queue[first] .. ' ' .. check)

local stack = {}
local x = 1
for i = 1, n do
  x = x * 16807 % 2147483647
  local number = x // 1000 % 3
  if stack[#stack] == number then
    check = check + table.remove(stack)
  else
    stack[#stack + 1] = number
  end
end
print(#stack .. ' ' .. check)
