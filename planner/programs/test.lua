-- what the interpreter, its libraries and its errors do; each line printed is compared
local t = {}
for i = 1, 1000 do t[i] = (i * 7919) % 1009 end
table.sort(t)
print(#t, t[1], t[1000], table.concat(t, ",", 1, 10))
print(string.format("%5.2f %x %q", math.pi, 255, "a\nb"), ("hello"):rep(3, "-"), ("x=1, y=2"):gsub("(%w)=(%w)", "%2=%1"))
print(pcall(error, { 1 }), select(2, pcall(function() local x = nil; return x.y end)))
local co = coroutine.wrap(function(a) for i = 1, 3 do a = coroutine.yield(a * i) end return "done" end)
print(co(2), co(3), co(4), co(5))
print(math.sin(1) ^ 2 + math.cos(1) ^ 2, 7 // 2, 7 % -3, 1 << 40, math.maxinteger + 1 == math.mininteger)
local function fib(n) if n < 2 then return n end return fib(n - 1) + fib(n - 2) end
print(fib(22), load("return ...", "chunk")(5), utf8.char(228, 8364), os.time({ year = 2026, month = 11, day = 30, hour = 12 }) > 0)
setmetatable(t, { __gc = function() end, __index = function(_, k) return k end })
print(t.foo, collectgarbage("count") > 0, require == nil, package.loaded.math == math)
