#!/bin/sh -eu
# Lua: a program for its library, which is also compiled and run as bytes.
build() {
    make -j"$JOBS" -C src generic CC="$CC -std=gnu99"
}

check() {
    cat > it.lua << 'END'
local words = {}
for word in io.open("README"):read("a"):gmatch("%a+") do words[#words + 1] = word end
table.sort(words)
print(#words, words[1], words[#words], string.format("%5.3f %q %x", math.pi, "a\n", 255), 7 // 2, 7 / 2, 2^53)
print(pcall(error, {code = 2} == nil), select("#", 1, nil, nil), utf8.char(228, 8364), os.time({year = 2020, month = 1, day = 1}))
do local last <close> = setmetatable({}, {__close = function() print("closed") end}) end
print(coroutine.wrap(function(a) local b = coroutine.yield(a + 1); return b * 2 end)(1))
END
    run src/lua it.lua
    run src/luac -o it.out it.lua
    sum it.out
    run src/lua it.out
}
