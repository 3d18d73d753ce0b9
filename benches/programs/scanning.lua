local n = io.read('n')
local letters = 'abcdefghijklmnopqrstuvwxyz'
local x = 1
local pieces = {}
for i = 1, n do
  x = x * 16807 % 2147483647
  local start = 1 + x // 1000 % 20
  pieces[#pieces + 1] = i % 2 == 0 and letters:sub(start, start + x % 6) or tostring(x // 1000 % 10000)
  pieces[#pieces + 1] = x % 5 == 0 and '+' or ' '
end
local text = table.concat(pieces)
print(#text .. ' ' .. text:sub(1, 20))

local digit = {}
for d = 0, 9 do
  digit[tostring(d)] = d
end
local is_letter = {}
for letter in letters:gmatch('.') do
  is_letter[letter] = true
end
local words = {}
local numbers = {}
local signs = 0
local i = 1
while i <= #text do
  local first = i
  local here = text:sub(i, i)
  if is_letter[here] then
    while is_letter[text:sub(i, i)] do
      i = i + 1
    end
    words[text:sub(first, i - 1)] = true
  elseif digit[here] then
    local value = 0
    while digit[text:sub(i, i)] do
      value = 10 * value + digit[text:sub(i, i)]
      i = i + 1
    end
    numbers[#numbers + 1] = value
  else
    if here ~= ' ' then
      signs = signs + 1
    end
    i = i + 1
  end
end

local count, longest, least = 0, 0, nil
for word in pairs(words) do
  count = count + 1
  longest = math.max(longest, #word)
  if not least or word < least then
    least = word
  end
end
print(count .. ' ' .. least .. ' ' .. longest)
local total = 0
for _, number in ipairs(numbers) do
  total = total + number
end
print(#numbers .. ' ' .. total .. ' ' .. signs)
