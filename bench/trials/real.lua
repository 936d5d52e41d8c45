-- Uses Lua as everyday scripts do: each part prints its results, and the last line says that all parts ran.

-- Strings and numbers
print("format", ("%5d|%-6s|%06.2f|%x|%q|%a"):format(42, "ab", 3.14159, 255, "a\n\0b", 1.5))
print("replaced", ("the quick brown fox"):gsub("(%w+)", function(it) return #it .. it:upper() end))
print("matched", ("key = value"):match("^(%w+)%s*=%s*(%w+)$"))
print("packed", string.unpack("<i4 z s1 d", string.pack("<i4 z s1 d", -7, "zero", "counted", 0.1)))
print("utf8", utf8.char(228, 8364, 128512), utf8.len("äöü"), utf8.codepoint("€", 1))
print("numbers", 7 // 2, 7 % -3, 2 ^ 53, 1 << 62, math.maxinteger + 1 == math.mininteger, 3 | 4.0)
print("functions", ("%.12f %.12f %.12f"):format(math.sin(1), math.exp(1), math.fmod(-7, 3)))

-- Tables
local words = {}
for i = 1, 2000 do words[i] = ("%08x"):format(i * 2654435761 % 4294967296) end
table.sort(words)
print("sorted", words[1], words[1000], words[2000], #table.concat(words, ","))
print("moved", table.unpack(table.move({ 1, 2, 3, 4 }, 2, 4, 1)))
local meta = { __index = function(_, key) return key .. "!" end }
meta.__call = function(_, n) return -n end
local set = setmetatable({}, meta)
print("metatables", set.missing, set(42), rawget(set, "missing"))
local weak, count = setmetatable({}, { __mode = "k" }), 0
for i = 1, 100 do weak[{}] = i end
collectgarbage()
for _ in pairs(weak) do count = count + 1 end
print("collected", count)

-- Closures and coroutines
local function counter()
    local n = 0
    return function() n = n + 1 return n end
end
local a, b = counter(), counter()
print("closures", a(), a(), b())
local prime = coroutine.wrap(function()
    for n = 2, math.huge do
        for d = 2, math.floor(math.sqrt(n)) do if n % d == 0 then goto next end end
        coroutine.yield(n)
        ::next::
    end
end)
local primes = {}
for i = 1, 500 do primes[i] = prime() end
print("primes", primes[1], primes[100], primes[500])
local function deep(n) return n == 0 and 0 or 1 + deep(n - 1) end
print("deep", deep(10000))

-- Errors
print("caught", select("#", pcall(error)), select(2, pcall(error, "plain", 0)))
print("caught", pcall(function() return nil + 1 end))
print("handled", xpcall(function() error("deep") end, function(what) return "so: " .. what end))
print("too deep", (select(2, pcall(deep, 1 / 0)):match("stack overflow")))
print("closed", pcall(function()
    local it <close> = setmetatable({}, { __close = function() print("closing") end })
    error("left", 0)
end))
print("compiled", load("return ... + 1")(41), load("return +"))
print("absent", select(2, pcall(require, "nowhere")))
print("dynamic", package.loadlib("./nowhere.so", "luaopen_nowhere"))

-- Files and the system
local name = "written by lua"
local file <close> = assert(io.open(name, "w+"))
for i = 1, 3000 do file:write(i, " ", i * i, "\n") end
file:seek("set", 0)
local sum = 0
for first, second in file:lines("n", "n") do sum = sum + first + second end
print("file", sum, file:seek("end"))
print("renamed", os.rename(name, name .. " again"), io.open(name))
print("time", os.date("!%Y-%m-%d %H:%M:%S", 1e9), os.time({ year = 2001, month = 9, day = 9 }))
print("words", os.getenv("HOME"), os.getenv("nowhere"), arg[0], #arg, arg[1], arg[2])
local pipe = assert(io.popen("echo from a shell"))
print("shell", pipe:read("a"), pipe:close())
print("status", os.execute("exit 3"))
print("input", #io.read("a"))

-- A module in C
local lpeg = require("lpeg")
local number = lpeg.R("09") ^ 1 / tonumber
local total = lpeg.Cf(number * ("+" * number) ^ 0, function(x, y) return x + y end)
print("lpeg", total:match("1+20+300"), lpeg.match(lpeg.P("a") ^ 1 * -1, "aaab"))
io.stderr:write("to standard error\n")
print("end")
os.exit(7, true)
