-- How many numbers below 6,000 are prime.
local crossed = {}
for i = 1, 6000 do crossed[i] = 0 end
local primes = 0
local i = 2
while i < 6000 do
  if crossed[i] == 0 then
    primes = primes + 1
    local j = i + i
    while j < 6000 do
      crossed[j] = 1
      j = j + i
    end
  end
  i = i + 1
end
print(primes)
