local function sum_to(n)
  if n == 0 then
    return 0
  end
  return n + sum_to(n - 1)
end

local function squares_to(n)
  if n == 0 then
    return {}
  end
  local squares = squares_to(n - 1)
  squares[#squares + 1] = n * n
  return squares
end

local function fib(n)
  if n < 2 then
    return n
  end
  return fib(n - 1) + fib(n - 2)
end

local n = io.read('n')
local squares = squares_to(n)
print(sum_to(n) .. ' ' .. #squares .. ' ' .. squares[n])

local total = 0
for i = 1, n // 100 do
  total = total + fib(14 + i % 3)
end
print(total)
