-- In how many ways 8 queens can be placed so that none attacks another one.
local function ways(columns, ups, downs, row)
  local count = 0
  if row == 9 then
    count = 1
  else
    local column = 1
    while column <= 8 do
      if columns[column] + ups[row + column - 1] + downs[row - column + 8] == 0 then
        local more = 0
        columns[column] = 1
        ups[row + column - 1] = 1
        downs[row - column + 8] = 1
        more = ways(columns, ups, downs, row + 1)
        columns[column] = 0
        ups[row + column - 1] = 0
        downs[row - column + 8] = 0
        count = count + more
      end
      column = column + 1
    end
  end
  return count
end
local columns, ups, downs = {}, {}, {}
for i = 1, 8 do columns[i] = 0 end
for i = 1, 15 do
  ups[i] = 0
  downs[i] = 0
end
print(ways(columns, ups, downs, 1))
