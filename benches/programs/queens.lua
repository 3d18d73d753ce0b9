local n = io.read('n')

local function is_free(columns, row, column)
  for above, other in ipairs(columns) do
    if other == column or math.abs(other - column) == row - above then
      return false
    end
  end
  return true
end

local function place(columns)
  local row = #columns + 1
  if row > n then
    print('[' .. table.concat(columns, ' ') .. ']')
    return
  end
  for column = 1, n do
    if is_free(columns, row, column) then
      columns[row] = column
      place(columns)
      columns[row] = nil
    end
  end
end

place({})
print('no more')
