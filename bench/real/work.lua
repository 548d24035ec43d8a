-- What Lua runs: calls, tables, strings, patterns, objects, closures, coroutines, sorting.
local function fib(n) if n < 2 then return n end return fib(n - 1) + fib(n - 2) end
print("fib", fib(22))

-- Random numbers, the same on every machine.
local seed = 12345
local function random(n) seed = (seed * 1103515245 + 12345) & 0x7fffffff; return (seed >> 8) % n + 1 end

local list = {}
for i = 1, 6000 do list[i] = random(1000000) end
table.sort(list)
table.sort(list, function(a, b) return a % 1000 < b % 1000 or (a % 1000 == b % 1000 and a < b) end)
local sum = 0
for i, v in ipairs(list) do sum = (sum * 31 + v * i) % 1000000007 end
print("sort", sum)

local words = {}
for i = 1, 1500 do
  local letters = {}
  for j = 1, random(8) + 1 do letters[j] = string.char(96 + random(6)) end
  words[i] = table.concat(letters)
end
local text = table.concat(words, " ")
local count, most = {}, ""
for word in text:gmatch("%a+") do count[word] = (count[word] or 0) + 1 end
for word, n in pairs(count) do
  if n > (count[most] or 0) or (n == count[most] and word < most) then most = word end
end
print("words", most, count[most], #text, (text:gsub("(%a)b", "<%1>")):len(), select(2, text:gsub("a[bc]+d", "")))
print("find", text:find("f%a-f%a-f"), text:upper():reverse():sub(1, 20), text:rep(3, "-"):len())

local Shape = {}
Shape.__index = Shape
function Shape.new(w, h) return setmetatable({w = w, h = h}, Shape) end
function Shape:area() return self.w * self.h end
Shape.__add = function(a, b) return Shape.new(a.w + b.w, math.max(a.h, b.h)) end
local Cube = setmetatable({}, {__index = Shape})
Cube.__index = Cube
function Cube.new(n) return setmetatable({w = n, h = n, d = n}, Cube) end
function Cube:volume() return self:area() * self.d end
local total = Shape.new(0, 0)
local volume = 0
for i = 1, 5000 do
  total = total + Shape.new(i % 7, i % 11)
  volume = volume + Cube.new(i % 13):volume()
end
print("objects", total.w, total.h, total:area(), volume)

local function queens(n)
  local found, row, up, down = 0, {}, {}, {}
  local function place(c)
    if c > n then found = found + 1; return end
    for r = 1, n do
      if not row[r] and not up[r + c] and not down[r - c] then
        row[r], up[r + c], down[r - c] = true, true, true
        place(c + 1)
        row[r], up[r + c], down[r - c] = nil, nil, nil
      end
    end
  end
  place(1)
  return found
end
print("queens", queens(7))

local function primes(n)
  return coroutine.wrap(function()
    local sieve = {}
    for i = 2, n do
      if not sieve[i] then
        coroutine.yield(i)
        for j = i * i, n, i do sieve[j] = true end
      end
    end
  end)
end
local last, primesum = 0, 0
for p in primes(20000) do last, primesum = p, primesum + p end
print("coroutines", last, primesum)

local x, steps = 0.0, {}
for i = 1, 4000 do
  x = x + math.sin(i) / (i + 0.5)
  if i % 1000 == 0 then steps[#steps + 1] = string.format("%.9f", x) end
end
print("floats", table.concat(steps, " "), math.floor(x * 1e6), 7 // 2, -7 % 3, 2 ^ 10)

local memo = {}
local function make(i) return function(n) memo[n] = (memo[n] or 0) + i; return memo[n] end end
local f = {}
for i = 1, 50 do f[i] = make(i) end
for i = 1, 20000 do f[i % 50 + 1](i % 97) end
local memosum = 0
for i = 0, 96 do memosum = memosum + memo[i] * i end
print("closures", memosum, pcall(error, "caught"))
print("load", load("local t = {} for i = 1, 100 do t[i] = i * i end return #t, t[100], table.unpack(t, 1, 5)")())
