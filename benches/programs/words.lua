local n = io.read('n')
local letters = 'abcdefghijkl'
local x = 1
local count = {}
for i = 1, n do
  local word = ''
  for k = 1, 3 do
    x = x * 16807 % 2147483647
    local place = 1 + x // 1000 % 12
    word = word .. letters:sub(place, place)
  end
  count[word] = (count[word] or 0) + 1
end

local words = {}
for word in pairs(count) do
  words[#words + 1] = word
end
print(#words)
table.sort(words, function(a, b)
  if count[a] == count[b] then
    return a < b
  end
  return count[a] > count[b]
end)
for i = 1, 10 do
  print(words[i] .. ' ' .. count[words[i]])
end
