local x = 1
local i = 0
while i < 20000 do
  x = (x * 7 + i) % 1000
  i = i + 1
end
print(x)
