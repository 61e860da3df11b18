-- A block of 65,536 numbers is filled, and copied by a loop.
local from, to = {}, {}
local i = 1
while i <= 65536 do
  from[i] = i - 1
  i = i + 1
end
i = 1
while i <= 65536 do
  to[i] = from[i]
  i = i + 1
end
print(to[1])
print(to[32769])
print(to[65536])
