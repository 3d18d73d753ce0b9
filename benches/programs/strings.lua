local n = io.read('n')
local letters = 'abcdefghijklmnopqrstuvwxyz'
local x = 1
local pieces = {}
for i = 1, n do
  x = x * 16807 % 2147483647
  local place = 1 + x // 1000 % 26
  pieces[i] = letters:sub(place, place)
end
local text = table.concat(pieces)
print(#text .. ' ' .. text:sub(1, 20))

local is_vowel = {a = true, e = true, i = true, o = true, u = true}
local vowels = 0
for letter in text:gmatch('.') do
  if is_vowel[letter] then
    vowels = vowels + 1
  end
end
local back = text:reverse()
print(vowels .. ' ' .. back:sub(1, 20) .. ' ' .. tostring(text < back))

local alike = 0
for i = 1, n - 2 do
  if text:sub(i, i + 2) == back:sub(n - i - 1, n - i + 1) then
    alike = alike + 1
  end
end
local seen = {}
local parts = {}
for i = 1, n - 1 do
  local part = text:sub(i, i + 1)
  if not seen[part] then
    seen[part] = true
    parts[#parts + 1] = part
  end
end
table.sort(parts)
print(alike .. ' ' .. #parts .. ' ' .. parts[1] .. ' ' .. #text:rep(3))
