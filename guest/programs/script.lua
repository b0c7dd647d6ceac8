-- Tries Lua as a guest: numbers, tables, errors, patterns, files, coroutines.
print(_VERSION, 7 // 2, 2 ^ 0.5, string.format("%.14g", 1 / 3), math.maxinteger, #arg)
local numbers = {}
for i = 1, 200 do numbers[i] = (i * 7919) % 211 end
table.sort(numbers)
print(table.concat(numbers, ",", 1, 12))
print(pcall(function() error("caught") end))
print(select("#", pcall(error)), tostring(nil), 1e100, -0.0, 10 / 3)
print(string.gsub("hello world", "(%w+)", "<%1>"), ("x"):rep(5, "-"))
local file = assert(io.open("lines", "w"))
for i = 1, 5 do file:write(i, "\t", i * i, "\n") end
file:close()
local sum = 0
for line in io.lines("lines") do sum = sum + tonumber(line:match("\t(%d+)")) end
print(sum, os.rename("lines", "other"), os.remove("other"))
print(io.open("lines"))
local words = coroutine.wrap(function() for _, word in ipairs(arg) do coroutine.yield(word) end end)
print(words(), words())
local function fib(n) return n < 2 and n or fib(n - 1) + fib(n - 2) end
print(fib(20), collectgarbage("count") > 10)
