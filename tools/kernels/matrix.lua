-- The product of two matrices of 64 rows and 64 columns.
local a, b, product = {}, {}, {}
local i = 0
while i < 4096 do
  a[i + 1] = i // 64 + i % 64
  b[i + 1] = i // 64 - i % 64
  i = i + 1
end
local row = 0
while row < 64 do
  local column = 0
  while column < 64 do
    local sum = 0
    local k = 1
    while k <= 64 do
      sum = sum + a[64 * row + k] * b[64 * k + column - 63]
      k = k + 1
    end
    product[64 * row + column + 1] = sum
    column = column + 1
  end
  row = row + 1
end
print(product[1])
print(product[64])
print(product[2081])
print(product[4096])
