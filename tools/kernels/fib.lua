-- 8,361 calls of fib.
local function fib(n)
  local x = n
  if n > 1 then
    local y = 0
    x = fib(n - 1)
    y = fib(n - 2)
    x = x + y
  end
  return x
end
print(fib(18))
