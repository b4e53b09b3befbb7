local function filled(n)
    local l = {}
    for i = 0, n - 1 do
        l[#l + 1] = i
    end
    return l
end

local t = 0
for turn = 0, 299 do
    local l = filled(1000)
    for i = 1, #l do
        t = (t * 31 + l[i]) % 1000003
    end
end
print("main value " .. t)
